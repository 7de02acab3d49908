//! The model of the pair table, and the expected answers of its calls.
//!
//! Roots, group sums and convertibility come from the oracle's `ConversionTable`.
//! The oracle shows neither its factors nor its parents, and has no page: these
//! are written from document 01, section Units and pairs, and from nothing else.
//! Wherever a root is asked for, both must have the same.

use crate::call::{Given, Outcome};
use crate::limits::{
    Refusal, ABSENT, BROKEN_TABLE, EMPTY_PAIRS_BYTES, MAX_NAMES, MAX_PAIRS, NOT_IN_USE, NO_ROOM,
    PAIR_BYTES,
};
use crate::names::Names;
use crate::units::{oracle_unit, stand_in_name, terms_or_none, unit_bytes, Term};
use oracle::units::{ConversionTable, Unit};

/// One symbol is so many of the base; the factor is the 64 bits of an f64.
#[derive(Debug, Clone, Copy, PartialEq, Eq)]
pub struct Pair {
    pub symbol: u8,
    pub factor: u64,
    pub base: u8,
}

impl Pair {
    /// Reads a P body.
    pub fn read(body: &[u8]) -> Self {
        let factor = body[2..].try_into().expect("eight bytes");
        Self { symbol: body[0], base: body[1], factor: u64::from_be_bytes(factor) }
    }
}

/// How many bytes a table of so many pairs takes.
pub fn table_bytes(count: usize) -> usize {
    EMPTY_PAIRS_BYTES + PAIR_BYTES * count
}

/// The pairs of a table in the order of their insertion.
#[derive(Debug, Clone, PartialEq, Eq, Default)]
pub struct Pairs(pub Vec<Pair>);

impl Pairs {
    /// Reads a page; `None` where it is not in form. All that follows the pairs is
    /// settled by them, so a page in form is the one that they write.
    pub fn read(page: &[u8]) -> Option<Self> {
        let (count, rest) = page.split_first_chunk::<2>()?;
        let count = usize::from(u16::from_be_bytes(*count));
        if count > MAX_PAIRS {
            return None;
        }
        let (bodies, _) = rest.split_at_checked(PAIR_BYTES * count)?;
        let pairs = Self(bodies.chunks(PAIR_BYTES).map(Pair::read).collect());
        (pairs.write(page.len())? == page).then_some(pairs)
    }

    /// The same, where so many names are in use; `None` also where a symbol is not.
    pub fn read_in_use(page: &[u8], names: usize) -> Option<Self> {
        let known = |pair: &Pair| usize::from(pair.symbol.max(pair.base)) < names;
        Self::read(page).filter(|pairs| pairs.0.iter().all(known))
    }

    /// The oracle's table of the pairs, built by its own insertion.
    pub fn oracle(&self, names: &[String]) -> ConversionTable {
        let mut table = ConversionTable::default();
        for pair in &self.0 {
            let [symbol, base] = [pair.symbol, pair.base].map(|symbol| &names[usize::from(symbol)]);
            table.insert(symbol, f64::from_bits(pair.factor), base);
        }
        table
    }

    /// Writes a page of `length` bytes; `None` where the table does not fit.
    pub fn write(&self, length: usize) -> Option<Vec<u8>> {
        if table_bytes(self.0.len()) > length {
            return None;
        }
        let mut page = (self.0.len() as u16).to_be_bytes().to_vec();
        for pair in &self.0 {
            page.extend([pair.symbol, pair.base]);
            page.extend(pair.factor.to_be_bytes());
        }
        page.extend(self.parents().0);
        page.resize(length, 0);
        Some(page)
    }

    /// The parents "just as the pairs give them": of each pair in turn "the base's
    /// root gets the symbol's root as parent".
    pub fn parents(&self) -> Parents {
        let mut parents = Parents(std::array::from_fn(|symbol| symbol as u8));
        for pair in &self.0 {
            let (root, base_root) = (parents.root(pair.symbol), parents.root(pair.base));
            parents.0[usize::from(base_root)] = root;
        }
        parents
    }
}

/// The parent of each symbol, "itself at a root".
pub struct Parents(pub [u8; MAX_NAMES]);

impl Parents {
    pub fn root(&self, symbol: u8) -> u8 {
        let mut root = symbol;
        while self.0[usize::from(root)] != root {
            root = self.0[usize::from(root)];
        }
        root
    }
}

/// A pair table, and the names of the numbers in use: those lent, else one that
/// stands in for each of the 256.
struct Tables {
    pairs: Pairs,
    names: Vec<String>,
}

impl Tables {
    /// Both tables in form, and every symbol of a pair in use.
    fn read(page: &[u8], names: &[u8], lent: bool) -> Result<Self, Refusal> {
        let names = if lent {
            Names::read(names).ok_or(BROKEN_TABLE)?.strings()
        } else {
            (0..=255).map(stand_in_name).collect()
        };
        let pairs = Pairs::read_in_use(page, names.len()).ok_or(BROKEN_TABLE)?;
        Ok(Self { pairs, names })
    }

    /// The same, and the symbols as pages have them, where these are in use.
    fn with_symbols<const N: usize>(
        page: &[u8],
        names: &[u8],
        lent: bool,
        symbols: [u16; N],
    ) -> Result<(Self, [u8; N]), Refusal> {
        let tables = Self::read(page, names, lent)?;
        if symbols.iter().any(|&symbol| usize::from(symbol) >= tables.names.len()) {
            return Err(NOT_IN_USE);
        }
        // There are never more than 256 names.
        Ok((tables, symbols.map(|symbol| symbol as u8)))
    }

    fn name(&self, symbol: u8) -> &str {
        &self.names[usize::from(symbol)]
    }

    fn number(&self, name: &str) -> u8 {
        self.names.iter().position(|known| known == name).expect("a root is in use") as u8
    }

    fn oracle(&self) -> ConversionTable {
        self.pairs.oracle(&self.names)
    }

    fn oracle_unit(&self, terms: &[Term]) -> Unit {
        oracle_unit(terms, |symbol| self.name(symbol).to_owned())
    }

    /// The terms of the oracle's unit, ascending by number.
    fn terms(&self, unit: &Unit) -> Vec<Term> {
        let exponents = (0..=255).zip(&self.names).map(|(number, name)| {
            let exponent = unit.exponent(name).try_into().expect("a sum fits in two bytes");
            (number, exponent)
        });
        exponents.filter(|&(_, exponent)| exponent != 0).collect()
    }

    /// The terms of the unit that the bytes say. No unit counts as empty; the oracle's `Unit`
    /// has no such value.
    fn terms_said(&self, unit: &[u8]) -> Result<Vec<Term>, Refusal> {
        terms_or_none(unit, self.names.len()).map(Option::unwrap_or_default)
    }

    /// The oracle's roots of the symbols, which the model's parents give as well.
    fn roots<const N: usize>(&self, symbols: [u8; N]) -> [u8; N] {
        let (oracle, parents) = (self.oracle(), self.pairs.parents());
        let roots = symbols.map(|symbol| self.number(&oracle.canonical(self.name(symbol))));
        assert_eq!(symbols.map(|symbol| parents.root(symbol)), roots, "the oracle's groups");
        roots
    }
}

pub fn empty_pairs(page: &[u8]) -> Outcome {
    let page = Pairs::default().write(page.len()).ok_or(BROKEN_TABLE)?;
    Ok(Given { page, ..Given::default() })
}

pub fn insert_pair(
    page: &[u8],
    names: &[u8],
    lent: bool,
    symbol_and_base: [u16; 2],
    factor: u64,
) -> Outcome {
    let (mut tables, [symbol, base]) = Tables::with_symbols(page, names, lent, symbol_and_base)?;
    if tables.pairs.0.len() == MAX_PAIRS {
        return Err(NO_ROOM);
    }
    tables.pairs.0.push(Pair { symbol, factor, base });
    let page = tables.pairs.write(page.len()).ok_or(NO_ROOM)?;
    let [root, base_root] = tables.roots([symbol, base]);
    assert_eq!(root, base_root, "a pair joins its symbols");
    Ok(Given { page, ..Given::default() })
}

pub fn canonical(page: &[u8], names: &[u8], lent: bool, symbol: u16) -> Outcome {
    let (tables, symbol) = Tables::with_symbols(page, names, lent, [symbol])?;
    let [root] = tables.roots(symbol);
    Ok(Given { value: root.into(), ..Given::default() })
}

/// "The first factor of a symbol stays": that of the first pair that has it.
pub fn factor(page: &[u8], names: &[u8], lent: bool, symbol: u16) -> Outcome {
    let (tables, [symbol]) = Tables::with_symbols(page, names, lent, [symbol])?;
    let given = match tables.pairs.0.iter().find(|pair| pair.symbol == symbol) {
        Some(pair) => Given {
            value: pair.base.into(),
            out: pair.factor.to_be_bytes().to_vec(),
            ..Given::default()
        },
        None => Given { value: ABSENT, ..Given::default() },
    };
    Ok(given)
}

pub fn canonicalize(page: &[u8], names: &[u8], lent: bool, unit: &[u8]) -> Outcome {
    let tables = Tables::read(page, names, lent)?;
    let unit = tables.oracle_unit(&tables.terms_said(unit)?);
    let sums = unit.canonicalize(&tables.oracle());
    let terms = tables.terms(&sums);
    assert_eq!(tables.oracle_unit(&terms), sums, "the oracle's sums are read back whole");
    Ok(Given { out: unit_bytes(&terms), ..Given::default() })
}

pub fn is_convertible_to(
    page: &[u8],
    names: &[u8],
    lent: bool,
    left: &[u8],
    right: &[u8],
) -> Outcome {
    let tables = Tables::read(page, names, lent)?;
    let (left, right) = lowest(tables.terms_said(left), tables.terms_said(right))?;
    let (left, right) = (tables.oracle_unit(&left), tables.oracle_unit(&right));
    let yes = left.is_convertible_to(&right, &tables.oracle());
    Ok(Given { value: yes.into(), ..Given::default() })
}

/// Both, or the lowest refusal of either.
pub fn lowest<A, B>(
    left: Result<A, Refusal>,
    right: Result<B, Refusal>,
) -> Result<(A, B), Refusal> {
    match (left, right) {
        (Ok(left), Ok(right)) => Ok((left, right)),
        (Err(left), Err(right)) => Err(left.min(right)),
        (Err(refusal), Ok(_)) | (Ok(_), Err(refusal)) => Err(refusal),
    }
}

#[cfg(test)]
mod tests {
    use super::*;
    use crate::inputs::pairs::{page_of, pair};
    use crate::limits::{BROKEN_UNIT, NO_UNIT};

    const MM: u8 = 0;
    const IN: u8 = 1;

    /// A page with one pair, in and mm.
    fn inches(length: usize) -> Vec<u8> {
        page_of(&[Pair { symbol: IN, factor: 25.4_f64.to_bits(), base: MM }], length)
    }

    fn converts(left: &[Term], right: &[Term]) -> u32 {
        let (left, right) = (unit_bytes(left), unit_bytes(right));
        is_convertible_to(&inches(0), b"", false, &left, &right).expect("an answer").value
    }

    #[test]
    fn document_01s_pair() {
        let page = inches(270);
        assert_eq!(page[..12], *b"\x00\x01\x01\x00\x40\x39\x66\x66\x66\x66\x66\x66");
        assert_eq!(page[12..16], [IN, IN, 2, 3]);
        assert_eq!(page[266..], [254, 255, 0, 0]);
        assert_eq!(canonical(&page, b"", false, MM.into()).unwrap().value, IN.into());
        assert_eq!(canonical(&page, b"", false, IN.into()).unwrap().value, IN.into());
        assert_eq!(converts(&[(IN, 1)], &[(MM, 1)]), 1);
        assert_eq!(converts(&[(IN, 1)], &[(MM, 2)]), 0);
    }

    #[test]
    fn sums_are_compared_and_not_symbols() {
        assert_eq!(converts(&[(MM, 1), (IN, -1)], &[]), 1);
        assert_eq!(converts(&[(MM, 1), (IN, 1)], &[(IN, 2)]), 1);
        assert_eq!(converts(&[(MM, 1), (IN, 1)], &[(IN, 1)]), 0);
    }

    #[test]
    fn a_page_in_form_is_read_and_each_breach_seen() {
        let page = page_of(&[pair(1, 0), pair(2, 1)], 280);
        assert_eq!(Pairs::read(&page), Some(Pairs(vec![pair(1, 0), pair(2, 1)])));
        // The parents are as the pairs give them, and no walk is shortened.
        assert_eq!(page[22..25], [1, 2, 2]);
        for (place, byte) in [(22, 2), (24, 0), (1, 1), (1, 3), (0, 2), (278, 1), (279, 1)] {
            let mut broken = page.clone();
            broken[place] = byte;
            assert_eq!(Pairs::read(&broken), None, "{place} {byte}");
        }
        assert_eq!(Pairs::read(&page[..277]), None);
        assert_eq!(Pairs::read(&[0; EMPTY_PAIRS_BYTES]), None);
        let many = vec![pair(1, 0); MAX_PAIRS + 1];
        assert!(Pairs::read(&page_of(&many[1..], 0)).is_some());
        assert_eq!(Pairs::read(&page_of(&many, 0)), None);
    }

    #[test]
    fn the_first_factor_stays() {
        let again = Pair { factor: 7, ..pair(1, 0) };
        let page = page_of(&[pair(1, 0), again], 0);
        let given = factor(&page, b"", false, 1).unwrap();
        assert_eq!((given.value, given.out), (0, pair(1, 0).factor.to_be_bytes().to_vec()));
        assert_eq!(factor(&page, b"", false, 0).unwrap().value, ABSENT);
    }

    #[test]
    fn the_lowest_refusal_comes_first() {
        let (page, names) = (inches(0), b"\x00\x02\x02mm\x02in");
        let insert = |page: &[u8], names: &[u8], symbol, base| {
            insert_pair(page, names, true, [symbol, base], 7).map(|given| given.page)
        };
        assert_eq!(insert(&page, b"\x00\x01\x02mm", 9, 0), Err(BROKEN_TABLE));
        assert_eq!(insert(&page, names, 0, 2), Err(NOT_IN_USE));
        assert_eq!(insert(&page, names, 256, 0), Err(NOT_IN_USE));
        assert_eq!(insert(&page, names, 0, 257), Err(NOT_IN_USE));
        assert_eq!(insert(&page, names, 0, 0), Err(NO_ROOM));
        let converts = |left: &[u8], right: &[u8]| {
            is_convertible_to(&page, names, true, left, right).map(|given| given.value)
        };
        assert_eq!(converts(&[9], &[1, 2, 0, 1]), Err(NOT_IN_USE));
        assert_eq!(converts(&[1, 2, 0, 1], &[9]), Err(NOT_IN_USE));
        assert_eq!(converts(&NO_UNIT, &[9, 2, 0, 1]), Err(NOT_IN_USE));
        assert_eq!(converts(&NO_UNIT, &[9, 1, 0, 1]), Err(BROKEN_UNIT));
        assert_eq!(converts(&NO_UNIT, &[0]), Ok(1));
    }

    #[test]
    fn no_unit_has_no_group() {
        let sums = |unit: &[u8]| canonicalize(&inches(0), b"", false, unit).map(|given| given.out);
        assert_eq!(sums(&NO_UNIT), Ok(vec![0]));
        assert_eq!(sums(&[0]), Ok(vec![0]));
        assert_eq!(sums(&[255, 0]), Err(BROKEN_UNIT));
    }

    #[test]
    fn a_wide_symbol_is_never_in_use() {
        let page = inches(300);
        for symbol in [256, 257, 511, 65_535] {
            let refusal = |outcome: Outcome| outcome.unwrap_err();
            assert_eq!(refusal(canonical(&page, b"", false, symbol)), NOT_IN_USE);
            assert_eq!(refusal(factor(&page, b"", false, symbol)), NOT_IN_USE);
            assert_eq!(refusal(insert_pair(&page, b"", false, [symbol, 0], 7)), NOT_IN_USE);
            assert_eq!(refusal(insert_pair(&page, b"", false, [0, symbol], 7)), NOT_IN_USE);
        }
        assert_eq!(canonical(&page, b"", false, 255).unwrap().value, 255);
    }
}
