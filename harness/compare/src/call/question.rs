//! A question put to an exported call.

use super::Call;
use crate::limits::BINDINGS_BYTES;
use crate::pairs::Pair;
use crate::types::store::Entry;

/// A checked type, and the bytes of its unit.
#[derive(Debug, Clone, Copy)]
pub struct Operand<'a> {
    pub checked: u32,
    pub unit: &'a [u8],
}

/// What an operator or an index is answered over: a store, a pair table, and the names,
/// which are not looked at unless they are lent.
#[derive(Debug, Clone, Copy)]
pub struct Pages<'a> {
    pub store: &'a [u8],
    pub names: &'a [u8],
    pub lent: bool,
    /// Empty where the call has none.
    pub pairs: &'a [u8],
}

/// All that a call is given. A part that the call does not have is empty or 0.
#[derive(Debug, Clone, PartialEq, Eq, PartialOrd, Ord, Hash)]
pub struct Question {
    pub call: Call,
    /// `read_name`: the number; `product`: 1 for a quotient; `exponent`: the symbol. Of the calls
    /// about pairs and types, and of the last three, the low byte is the symbol or the kind of
    /// `make_type`, and the next one is 1 where names are lent; the upper half is 0 but for
    /// symbols of 256 or more: its low byte is the symbol's upper one, and the next one that of
    /// the base or of the name in `first`.
    pub argument: u32,
    /// A names page, a pair table's or a store's, as the call has it.
    pub page: Vec<u8>,
    /// A name, a unit, the base and the factor of `insert_pair`, the name and the children of
    /// `make_type`, or the numbers of another call about types, four bytes each; of the last
    /// three calls these are followed by the bytes of the (left) unit.
    pub first: Vec<u8>,
    /// The right operand of `product` and `is_convertible_to`, the bindings, or the right
    /// unit of `check_binary_operator`.
    pub second: Vec<u8>,
    /// The names page beside a pair table or a store; not looked at unless it is lent.
    pub names: Vec<u8>,
    /// The pair table's page beside the store of `check_binary_operator`.
    pub pairs: Vec<u8>,
}

impl Question {
    fn new(call: Call) -> Self {
        Self {
            call,
            argument: 0,
            page: Vec::new(),
            first: Vec::new(),
            second: Vec::new(),
            names: Vec::new(),
            pairs: Vec::new(),
        }
    }

    pub fn empty_names(page: &[u8]) -> Self {
        Self { page: page.to_vec(), ..Self::new(Call::EmptyNames) }
    }

    pub fn add_name(page: &[u8], name: &[u8]) -> Self {
        Self { page: page.to_vec(), first: name.to_vec(), ..Self::new(Call::AddName) }
    }

    pub fn find_name(page: &[u8], name: &[u8]) -> Self {
        Self { page: page.to_vec(), first: name.to_vec(), ..Self::new(Call::FindName) }
    }

    pub fn read_name(page: &[u8], number: u32) -> Self {
        Self { page: page.to_vec(), argument: number, ..Self::new(Call::ReadName) }
    }

    pub fn unit_form(unit: &[u8]) -> Self {
        Self { first: unit.to_vec(), ..Self::new(Call::UnitForm) }
    }

    pub fn product(left: &[u8], right: &[u8], quotient: bool) -> Self {
        Self {
            argument: quotient.into(),
            first: left.to_vec(),
            second: right.to_vec(),
            ..Self::new(Call::Product)
        }
    }

    pub fn exponent(unit: &[u8], symbol: u16) -> Self {
        Self { argument: symbol.into(), first: unit.to_vec(), ..Self::new(Call::Exponent) }
    }

    pub fn is_dimensionless(unit: &[u8]) -> Self {
        Self { first: unit.to_vec(), ..Self::new(Call::IsDimensionless) }
    }

    pub fn unit_text(names: &[u8], unit: &[u8]) -> Self {
        Self { page: names.to_vec(), first: unit.to_vec(), ..Self::new(Call::UnitText) }
    }

    pub fn empty_pairs(page: &[u8]) -> Self {
        Self { page: page.to_vec(), ..Self::new(Call::EmptyPairs) }
    }

    pub fn insert_pair(page: &[u8], names: &[u8], lent: bool, pair: Pair) -> Self {
        let symbol_and_base = [pair.symbol, pair.base].map(u16::from);
        Self::insert_symbols(page, names, lent, symbol_and_base, pair.factor)
    }

    /// The same of any symbols, those that no page has room for among them.
    pub fn insert_symbols(
        page: &[u8],
        names: &[u8],
        lent: bool,
        [symbol, base]: [u16; 2],
        factor: u64,
    ) -> Self {
        let [upper, lower] = base.to_be_bytes();
        let base_and_factor = [&[lower][..], &factor.to_be_bytes()].concat();
        let beside = Self::with_symbol(Call::InsertPair, page, names, lent, symbol);
        Self { first: base_and_factor, ..beside }.with_upper_byte(upper)
    }

    pub fn canonical(page: &[u8], names: &[u8], lent: bool, symbol: u16) -> Self {
        Self::with_symbol(Call::Canonical, page, names, lent, symbol)
    }

    pub fn factor(page: &[u8], names: &[u8], lent: bool, symbol: u16) -> Self {
        Self::with_symbol(Call::Factor, page, names, lent, symbol)
    }

    pub fn canonicalize(page: &[u8], names: &[u8], lent: bool, unit: &[u8]) -> Self {
        Self { first: unit.to_vec(), ..Self::beside(Call::Canonicalize, page, names, lent, 0) }
    }

    pub fn is_convertible_to(
        page: &[u8],
        names: &[u8],
        lent: bool,
        left: &[u8],
        right: &[u8],
    ) -> Self {
        Self {
            first: left.to_vec(),
            second: right.to_vec(),
            ..Self::beside(Call::IsConvertibleTo, page, names, lent, 0)
        }
    }

    pub fn empty_types(page: &[u8]) -> Self {
        Self { page: page.to_vec(), ..Self::new(Call::EmptyTypes) }
    }

    pub fn make_type(page: &[u8], names: &[u8], lent: bool, entry: &Entry) -> Self {
        Self::make_named(page, names, lent, entry, entry.name.into())
    }

    /// The same with any name in place of the entry's, one that no page has room for among them.
    pub fn make_named(page: &[u8], names: &[u8], lent: bool, entry: &Entry, name: u16) -> Self {
        let [upper, lower] = name.to_be_bytes();
        let mut first = vec![lower];
        first.extend(entry.children.iter().flat_map(|child| child.to_be_bytes()));
        let beside = Self::beside(Call::MakeType, page, names, lent, entry.kind);
        Self { first, ..beside }.with_upper_byte(upper)
    }

    pub fn read_type(page: &[u8], names: &[u8], lent: bool, number: u32) -> Self {
        Self::of_numbers(Call::ReadType, page, names, lent, &[number])
    }

    pub fn matches(page: &[u8], names: &[u8], lent: bool, actual: u32, expected: u32) -> Self {
        Self::of_numbers(Call::Matches, page, names, lent, &[actual, expected])
    }

    pub fn has_generic(page: &[u8], names: &[u8], lent: bool, number: u32) -> Self {
        Self::of_numbers(Call::HasGeneric, page, names, lent, &[number])
    }

    pub fn into_const(page: &[u8], names: &[u8], lent: bool, checked: u32) -> Self {
        Self::of_numbers(Call::IntoConst, page, names, lent, &[checked])
    }

    pub fn unify(
        page: &[u8],
        names: &[u8],
        lent: bool,
        [expected, actual]: [u32; 2],
        bindings: &[u8; BINDINGS_BYTES],
    ) -> Self {
        let asked = Self::of_numbers(Call::Unify, page, names, lent, &[expected, actual]);
        Self { second: bindings.to_vec(), ..asked }
    }

    pub fn unify_arg(
        page: &[u8],
        names: &[u8],
        lent: bool,
        [expected, actual]: [u32; 2],
        bindings: &[u8; BINDINGS_BYTES],
    ) -> Self {
        let asked = Self::of_numbers(Call::UnifyArg, page, names, lent, &[expected, actual]);
        Self { second: bindings.to_vec(), ..asked }
    }

    pub fn substitute(
        page: &[u8],
        names: &[u8],
        lent: bool,
        number: u32,
        bindings: &[u8; BINDINGS_BYTES],
    ) -> Self {
        let asked = Self::of_numbers(Call::Substitute, page, names, lent, &[number]);
        Self { second: bindings.to_vec(), ..asked }
    }

    pub fn check_binary_operator(pages: Pages, op: u32, left: Operand, right: Operand) -> Self {
        let numbers = [op, left.checked, right.checked];
        let asked = Self::of_answer(Call::CheckBinaryOperator, pages, &numbers, left.unit);
        Self { second: right.unit.to_vec(), pairs: pages.pairs.to_vec(), ..asked }
    }

    pub fn check_unary_operator(pages: Pages, op: u32, operand: Operand) -> Self {
        let numbers = [op, operand.checked];
        Self::of_answer(Call::CheckUnaryOperator, pages, &numbers, operand.unit)
    }

    pub fn check_index(pages: Pages, target: Operand, key: u32) -> Self {
        Self::of_answer(Call::CheckIndex, pages, &[target.checked, key], target.unit)
    }

    /// A call that answers an operator or an index.
    fn of_answer(call: Call, pages: Pages, numbers: &[u32], unit: &[u8]) -> Self {
        let mut asked = Self::of_numbers(call, pages.store, pages.names, pages.lent, numbers);
        asked.first.extend(unit);
        asked
    }

    /// A call about types that is given numbers.
    fn of_numbers(call: Call, page: &[u8], names: &[u8], lent: bool, numbers: &[u32]) -> Self {
        let first = numbers.iter().flat_map(|number| number.to_be_bytes()).collect();
        Self { first, ..Self::beside(call, page, names, lent, 0) }
    }

    /// A call with a names page beside a pair table or a store; `byte` is its symbol or kind.
    fn beside(call: Call, page: &[u8], names: &[u8], lent: bool, byte: u8) -> Self {
        Self {
            argument: u32::from(lent) << 8 | u32::from(byte),
            page: page.to_vec(),
            names: names.to_vec(),
            ..Self::new(call)
        }
    }

    /// A call with a names page beside a pair table, and a symbol.
    fn with_symbol(call: Call, page: &[u8], names: &[u8], lent: bool, symbol: u16) -> Self {
        let [upper, lower] = symbol.to_be_bytes();
        let mut beside = Self::beside(call, page, names, lent, lower);
        beside.argument |= u32::from(upper) << 16;
        beside
    }

    /// With that upper byte of the base or the name that `first` begins with.
    fn with_upper_byte(mut self, upper: u8) -> Self {
        self.argument |= u32::from(upper) << 24;
        self
    }

    /// The symbol of `exponent` or of a call about pairs.
    pub fn symbol(&self) -> u16 {
        let [_, upper, middle, lower] = self.argument.to_be_bytes();
        match self.call {
            Call::Exponent => u16::from_be_bytes([middle, lower]),
            _ => u16::from_be_bytes([upper, lower]),
        }
    }

    pub fn lent(&self) -> bool {
        self.argument >> 8 & 1 == 1
    }

    /// The base or the name that `first` begins with, and the bytes after it.
    fn number_first(&self) -> (u16, &[u8]) {
        let (&lower, rest) = self.first.split_first().expect("a base or a name");
        (u16::from_be_bytes([self.argument.to_be_bytes()[0], lower]), rest)
    }

    /// The symbol and the base of `insert_pair`, and its factor.
    pub fn insertion(&self) -> ([u16; 2], u64) {
        let (base, factor) = self.number_first();
        let factor = factor.try_into().expect("the eight bytes of a factor");
        ([self.symbol(), base], u64::from_be_bytes(factor))
    }

    /// The type of `make_type`, whatever its kind takes, and its name, which may be one that
    /// the type itself has no room for.
    pub fn entry(&self) -> (Entry, u16) {
        let (name, children) = self.number_first();
        let children: Vec<u16> =
            children.chunks(2).map(|pair| u16::from_be_bytes([pair[0], pair[1]])).collect();
        (Entry::of(self.argument as u8, &children), name)
    }

    /// The numbers of a call that is given some.
    pub fn numbers(&self) -> impl Iterator<Item = u32> + '_ {
        let number = |part: &[u8]| u32::from_be_bytes(part.try_into().expect("four bytes"));
        self.numbers_and_unit().0.chunks(4).map(number)
    }

    /// The (left) unit of a call that answers an operator or an index.
    pub fn unit(&self) -> &[u8] {
        self.numbers_and_unit().1
    }

    fn numbers_and_unit(&self) -> (&[u8], &[u8]) {
        match self.call.is_about_answers() {
            true => self.first.split_at(4 * self.call.numbers()),
            false => (&self.first, &[]),
        }
    }

    pub fn number(&self) -> u32 {
        self.numbers().next().expect("a number")
    }

    /// The numbers of a call that is given two.
    pub fn two_numbers(&self) -> [u32; 2] {
        let numbers: Vec<u32> = self.numbers().collect();
        numbers.try_into().expect("two numbers")
    }

    /// The operator and the operands of `check_binary_operator`.
    pub fn operation(&self) -> (u32, Operand<'_>, Operand<'_>) {
        let numbers: Vec<u32> = self.numbers().collect();
        let [op, left, right] = numbers.try_into().expect("three numbers");
        let left = Operand { checked: left, unit: self.unit() };
        (op, left, Operand { checked: right, unit: &self.second })
    }

    /// The pages of a call that answers an operator or an index.
    pub fn pages(&self) -> Pages<'_> {
        Pages { store: &self.page, names: &self.names, lent: self.lent(), pairs: &self.pairs }
    }

    /// The bindings, of a call that is lent them.
    pub fn bindings(&self) -> Option<&[u8; BINDINGS_BYTES]> {
        self.second.as_slice().try_into().ok()
    }
}
