//! Units that lie near each other: their sums over a table's groups are equal, or
//! just not.

use crate::inputs::units::{some_exponent, some_terms};
use crate::limits::{MAX_EXPONENT, MAX_SYMBOLS, NO_UNIT};
use crate::pairs::{Pair, Pairs, Parents};
use crate::random::Random;
use crate::units::{unit_bytes, Term};
use std::collections::BTreeMap;

/// The groups of a table: the symbols of each root.
pub struct Groups {
    parents: Parents,
    symbols: BTreeMap<u8, Vec<u8>>,
}

impl Groups {
    pub fn of(list: &[Pair]) -> Self {
        let parents = Pairs(list.to_vec()).parents();
        let mut symbols: BTreeMap<u8, Vec<u8>> = BTreeMap::new();
        for symbol in 0..=255 {
            symbols.entry(parents.root(symbol)).or_default().push(symbol);
        }
        Self { parents, symbols }
    }

    /// A symbol joined with this one, or itself.
    fn joined(&self, random: &mut Random, symbol: u8) -> u8 {
        *random.pick(&self.symbols[&self.parents.root(symbol)])
    }

    fn largest(&self) -> &[u8] {
        self.symbols.values().max_by_key(|symbols| symbols.len()).expect("a group")
    }
}

/// Two units over the symbols below `bound` and those joined with them.
pub fn near_units(random: &mut Random, groups: &Groups, bound: usize) -> [Vec<Term>; 2] {
    let (left, right) = match random.below(8) {
        0 => (cancelling(random, groups, bound), cancelling(random, groups, bound)),
        1 => {
            let exponent = *random.pick(&[MAX_EXPONENT, -MAX_EXPONENT]);
            (extreme(random, groups, exponent), extreme(random, groups, exponent))
        }
        2 => (some_sums(random, bound), some_sums(random, bound)),
        _ => {
            let left = some_sums(random, bound);
            let right = moved(random, groups, &left);
            (left, right)
        }
    };
    let right = if random.once_in(3) { disturbed(random, right, bound) } else { right };
    let left = terms_of(&left).unwrap_or_default();
    let right = terms_of(&right).unwrap_or_else(|| left.clone());
    if random.once_in(2) {
        [left, right]
    } else {
        [right, left]
    }
}

/// The unit's bytes; now and then no unit in place of the empty one.
pub fn bytes_or_none(random: &mut Random, terms: &[Term]) -> Vec<u8> {
    if terms.is_empty() && random.once_in(2) {
        NO_UNIT.to_vec()
    } else {
        unit_bytes(terms)
    }
}

/// Exponents by symbol, which may be zero, outside the limit or too many for a unit.
type Sums = BTreeMap<u8, i32>;

fn add(sums: &mut Sums, symbol: u8, exponent: i32) {
    *sums.entry(symbol).or_default() += exponent;
}

/// The unit, where it is one.
fn terms_of(sums: &Sums) -> Option<Vec<Term>> {
    let terms = sums.iter().filter(|&(_, &exponent)| exponent != 0);
    let terms: Vec<Term> = terms.map(|(&symbol, &exponent)| (symbol, exponent as i16)).collect();
    let allowed = |&(_, exponent): &Term| i32::from(exponent).abs() <= MAX_EXPONENT;
    (terms.len() <= MAX_SYMBOLS && terms.iter().all(allowed)).then_some(terms)
}

fn some_sums(random: &mut Random, bound: usize) -> Sums {
    some_terms(random, bound).iter().map(|&(symbol, exponent)| (symbol, exponent.into())).collect()
}

/// The same sums over other symbols of the same groups.
fn moved(random: &mut Random, groups: &Groups, sums: &Sums) -> Sums {
    let mut moved = Sums::new();
    for (&symbol, &exponent) in sums {
        // Part of it may go elsewhere.
        let part = if random.once_in(4) { some_exponent(random).into() } else { 0 };
        add(&mut moved, groups.joined(random, symbol), part);
        add(&mut moved, groups.joined(random, symbol), exponent - part);
    }
    moved
}

/// Symbols that cancel each other, such as kg/g.
fn cancelling(random: &mut Random, groups: &Groups, bound: usize) -> Sums {
    let mut sums = Sums::new();
    for _ in 0..random.below(5) {
        let symbol = random.below(bound) as u8;
        let exponent = some_exponent(random).into();
        add(&mut sums, symbol, exponent);
        add(&mut sums, groups.joined(random, symbol), -exponent);
    }
    sums
}

/// Up to eight symbols of the largest group, all with that exponent.
fn extreme(random: &mut Random, groups: &Groups, exponent: i32) -> Sums {
    let symbols = groups.largest();
    let count = symbols.len().min(MAX_SYMBOLS);
    let mut sums = Sums::new();
    while sums.len() < count {
        sums.insert(*random.pick(symbols), exponent);
    }
    sums
}

/// An exponent one more or less, or the same but for its upper byte; all of them turned;
/// one given to any other symbol.
fn disturbed(random: &mut Random, mut sums: Sums, bound: usize) -> Sums {
    let symbols: Vec<u8> = sums.keys().copied().collect();
    let any = random.below(bound) as u8;
    let symbol = if symbols.is_empty() { any } else { *random.pick(&symbols) };
    match random.below(5) {
        0 | 1 => add(&mut sums, symbol, *random.pick(&[1, -1])),
        2 => add(&mut sums, symbol, *random.pick(&[256, -256])),
        3 => sums.values_mut().for_each(|exponent| *exponent = -*exponent),
        _ => {
            let exponent = sums.remove(&symbol).unwrap_or(1);
            add(&mut sums, any, exponent);
        }
    }
    sums
}
