//! What two formulas are drawn over: types, symbols, pairs and units.

use crate::formulas::statement::{Fault, Statement};
use crate::formulas::{Case, Formula};
use crate::inputs::names::{shortest_names, table};
use crate::inputs::pairs::{page_of, pair};
use crate::inputs::types::shapes::{
    array, enter, fixed, holding, named, of, over, Shape, A, ANY, ARRAY, BOOL, BYTE, CALLBACK,
    CANY, CARRAY, CFLOAT, CINT, CMAP, CSET, CTUPLE, FLOAT, INT, MAP, RECORD, RESULT, SET, STRING,
    TUPLE, UINT,
};
use crate::limits::{MAX_EXPONENT, MAX_NAMES, MAX_PAIRS, MAX_SYMBOLS, PAIR_BYTES};
use crate::pairs::{table_bytes, Pair};
use crate::random::Random;
use crate::types::store::Store;
use crate::units::{unit_bytes, Term};
use std::collections::BTreeMap;

/// Types beside the fixed ones: what is indexed, with and without unions, and what is not.
fn shapes() -> Vec<Shape> {
    let mixed = over(ANY, &[INT, FLOAT]);
    let ints = over(ANY, &[INT, CINT]);
    vec![
        over(ARRAY, &[INT]),
        over(CARRAY, &[FLOAT]),
        over(SET, &[UINT]),
        over(CSET, &[BYTE]),
        over(MAP, &[STRING, INT]),
        over(CMAP, &[INT, FLOAT]),
        over(MAP, &[FLOAT, UINT]),
        of(MAP, &[fixed(BOOL), over(ARRAY, &[INT])]),
        array(over(CARRAY, &[FLOAT])),
        over(RESULT, &[INT]),
        over(TUPLE, &[INT, FLOAT]),
        over(CTUPLE, &[]),
        over(CALLBACK, &[INT, INT]),
        named(RECORD, A),
        mixed.clone(),
        ints.clone(),
        over(CANY, &[UINT]),
        over(ANY, &[CINT, CFLOAT]),
        holding(ANY, &holding(CANY, &mixed)),
        of(ANY, &[fixed(INT), holding(ANY, &ints)]),
        over(ANY, &[]),
        array(mixed),
        array(ints),
        of(ANY, &[over(ARRAY, &[INT]), over(SET, &[INT])]),
        of(CANY, &[over(ARRAY, &[INT]), over(SET, &[FLOAT])]),
        of(MAP, &[over(ANY, &[INT, STRING]), fixed(INT)]),
    ]
}

pub fn is_union(kind: u8) -> bool {
    matches!(kind, ANY | CANY)
}

pub fn holds_union(store: &Store, number: u16) -> bool {
    let entry = store.entry(number);
    is_union(entry.kind) || entry.children.iter().any(|&child| holds_union(store, child))
}

/// What one formula and the next have in common.
pub struct Ground {
    pub store: Store,
    /// Symbols in use, those of the units.
    pub symbols: Vec<u8>,
    /// The lowest symbol of each one's group.
    groups: [u8; MAX_NAMES],
    /// The same where refused insertions joined symbols too.
    wrong_groups: [u8; MAX_NAMES],
}

/// A case without its formulas.
pub fn ground(random: &mut Random) -> (Case, Ground) {
    let lent = random.once_in(2);
    let count =
        if random.once_in(40) { MAX_SYMBOLS + 2 } else { 2 + random.below(MAX_SYMBOLS - 1) };
    let used = if lent { count + random.below(4) } else { MAX_NAMES };
    let mut symbols: Vec<u8> = Vec::new();
    while symbols.len() < count {
        let symbol = random.below(used) as u8;
        if !symbols.contains(&symbol) {
            symbols.push(symbol);
        }
    }

    let mut store = Store::default();
    for shape in shapes() {
        if !random.once_in(3) {
            enter(&mut store, &shape);
        }
    }
    let mut page = store.write(0);
    page.resize(page.len() + *random.pick(&[0, 7, 40, 500]), 0);

    let start = some_pairs(random, &symbols);
    let requests = some_requests(random, &symbols, used);
    let wanted = start.len() + requests.len();
    let fitting =
        if random.once_in(4) { wanted - random.below(requests.len() + 1) } else { wanted };
    let length = table_bytes(fitting) + *random.pick(&[0, 1, PAIR_BYTES - 1, 100]);
    let names = if lent { table(&shortest_names(used)) } else { vec![255; random.below(3)] };
    let nothing = Formula { nodes: Vec::new(), root: 0 };
    let case = Case {
        store: page,
        names,
        lent,
        pairs: page_of(&start, length),
        requests: requests.into_iter().flatten().collect(),
        left: nothing.clone(),
        right: nothing,
    };
    let groups = |fault: Option<Fault>| {
        let statement = Statement { fault };
        statement.groups(&statement.accepted(&case))
    };
    let (groups, wrong_groups) = (groups(None), groups(Some(Fault::RefusedPairs)));
    (case, Ground { store, symbols, groups, wrong_groups })
}

fn joining(random: &mut Random, symbols: &[u8]) -> Pair {
    pair(*random.pick(symbols), *random.pick(symbols))
}

/// The pairs that the table begins with, at times as many as it can have or nearly so.
fn some_pairs(random: &mut Random, symbols: &[u8]) -> Vec<Pair> {
    let mut pairs: Vec<Pair> = (0..random.below(4)).map(|_| joining(random, symbols)).collect();
    if random.once_in(40) {
        let again = pair(symbols[0], symbols[0]);
        pairs.resize(MAX_PAIRS - random.below(4), again);
    }
    pairs
}

/// P bodies, of symbols in use and not.
fn some_requests(random: &mut Random, symbols: &[u8], used: usize) -> Vec<Vec<u8>> {
    let mut bodies = Vec::new();
    for _ in 0..random.below(6) {
        let mut pair = joining(random, symbols);
        if used < MAX_NAMES && random.once_in(6) {
            let unused = used as u8 + random.below(MAX_NAMES - used) as u8;
            *(if random.once_in(2) { &mut pair.symbol } else { &mut pair.base }) = unused;
        }
        bodies.push([&[pair.symbol, pair.base][..], &pair.factor.to_be_bytes()].concat());
    }
    bodies
}

// ---- Units

pub type Unit = BTreeMap<u8, i32>;

pub fn is_within_limits(unit: &Unit) -> bool {
    let allowed = |exponent: &i32| (-MAX_EXPONENT..=MAX_EXPONENT).contains(exponent);
    unit.len() <= MAX_SYMBOLS && unit.values().all(allowed)
}

/// The bytes of a unit within the limits.
pub fn bytes_of(unit: &Unit) -> Vec<u8> {
    let terms: Vec<Term> = unit.iter().map(|(&symbol, &exp)| (symbol, exp as i16)).collect();
    unit_bytes(&terms)
}

pub fn times(left: &Unit, right: &Unit, sign: i32) -> Unit {
    let mut unit = left.clone();
    for (&symbol, exponent) in right {
        *unit.entry(symbol).or_default() += sign * exponent;
    }
    unit.retain(|_, exponent| *exponent != 0);
    unit
}

impl Ground {
    pub fn unit(&self, random: &mut Random) -> Unit {
        let mut unit = Unit::new();
        let count = if random.once_in(12) { MAX_SYMBOLS } else { random.below(4) };
        // Large ones alone come to group sums far beyond an exponent's limit.
        let often = if random.once_in(30) { 1 } else { 20 };
        for _ in 0..count {
            let exponent = match random.below(often) {
                0 => *random.pick(&[1, -1]) * random.between(990, MAX_EXPONENT),
                _ => *random.pick(&[1, 1, 1, -1, -1, 2, -2, 3]),
            };
            unit.insert(*random.pick(&self.symbols), exponent);
        }
        unit
    }

    pub fn sums(&self, unit: &Unit) -> Unit {
        let mut sums = Unit::new();
        for (&symbol, exponent) in unit {
            *sums.entry(self.groups[usize::from(symbol)]).or_default() += exponent;
        }
        sums.retain(|_, sum| *sum != 0);
        sums
    }

    /// One symbol over another, where wrong groups hold both, and the right ones do not.
    pub fn wrongly_nothing(&self, random: &mut Random) -> Unit {
        let differ = |groups: &[u8; MAX_NAMES], one: u8, other: u8| {
            groups[usize::from(one)] != groups[usize::from(other)]
        };
        let others = |&one: &u8| self.symbols.iter().map(move |&other| (one, other));
        let wrong = self.symbols.iter().flat_map(others).filter(|&(one, other)| {
            differ(&self.groups, one, other) && !differ(&self.wrong_groups, one, other)
        });
        let wrong: Vec<(u8, u8)> = wrong.collect();
        match wrong.is_empty() {
            true => Unit::new(),
            false => {
                let (one, other) = *random.pick(&wrong);
                Unit::from([(one, 1), (other, -1)])
            }
        }
    }

    /// A unit with the same group sums, written in other symbols; now and then with one more
    /// symbol and its contrary.
    pub fn convertible(&self, random: &mut Random, unit: &Unit) -> Unit {
        let mut other = Unit::new();
        let mate = |random: &mut Random, symbol: u8| {
            let group = self.groups[usize::from(symbol)];
            let mates = self.symbols.iter().filter(|&&one| self.groups[usize::from(one)] == group);
            let mates: Vec<u8> = mates.copied().collect();
            *random.pick(&mates)
        };
        for (&symbol, &exponent) in unit {
            let part = if random.once_in(4) { random.between(-1, 1) } else { 0 };
            *other.entry(mate(random, symbol)).or_default() += exponent - part;
            *other.entry(mate(random, symbol)).or_default() += part;
        }
        if random.once_in(6) {
            let symbol = *random.pick(&self.symbols);
            *other.entry(mate(random, symbol)).or_default() += 1;
            *other.entry(mate(random, symbol)).or_default() -= 1;
        }
        other.retain(|_, exponent| *exponent != 0);
        if is_within_limits(&other) && other.is_empty() == unit.is_empty() {
            other
        } else {
            unit.clone()
        }
    }
}
