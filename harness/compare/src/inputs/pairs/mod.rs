//! Questions about pair tables: how their parts are made, and one random question
//! of each call.
//!
//! - `pages`: pages of every length, in form and damaged, with names beside them
//! - `lists`: tables grown pair by pair
//! - `groups`: units that lie near each other

mod groups;
mod lists;
mod pages;

use super::names::{different_names, shortest_names, table};
use super::units::broken_terms;
use super::unused::any_unit;
use super::{damaged_somewhere, Sink};
use crate::call::Question;
use crate::limits::{MAX_NAMES, MAX_PAIRS, PAIR_BYTES};
use crate::pairs::{table_bytes, Pair, Pairs, Parents};
use crate::random::Random;
use crate::units::{unit_bytes, Term};
use groups::bytes_or_none;

pub use groups::{near_units, Groups};

pub fn questions(random: &mut Random, rounds: usize, ask: Sink) {
    pages::questions(random, ask);
    lists::questions(random, rounds, ask);
    for _ in 0..rounds {
        ask(empty_pairs(random));
        ask(insert_pair(random));
        ask(canonical(random));
        ask(factor(random));
        ask(canonicalize(random));
        ask(is_convertible_to(random));
        ask(units_of_any(random));
    }
}

// ---- Pairs and their pages ----

/// A pair whose factor tells it from the others, and each of its bytes from the rest.
pub fn pair(symbol: u8, base: u8) -> Pair {
    Pair { symbol, factor: u64::from_be_bytes([1, 2, 3, 4, 5, 6, symbol, base]), base }
}

/// The symbol and the base of a pair.
pub type Symbols = (u8, u8);

/// Such pairs, in this order.
pub fn pairs(list: &[Symbols]) -> Vec<Pair> {
    list.iter().map(|&(symbol, base)| pair(symbol, base)).collect()
}

/// Each pair the other way round.
pub fn turned(list: &[Pair]) -> Vec<Pair> {
    list.iter().map(|pair| Pair { symbol: pair.base, base: pair.symbol, ..*pair }).collect()
}

/// The last pair first.
pub fn reversed(list: &[Pair]) -> Vec<Pair> {
    list.iter().rev().copied().collect()
}

/// The table of the pairs on a page of the given length (at least the table's own).
pub fn page_of(list: &[Pair], length: usize) -> Vec<u8> {
    Pairs(list.to_vec()).write(length.max(table_bytes(list.len()))).expect("room")
}

/// The table of the pairs, but with these parents.
fn with_parents(list: &[Pair], parents: &Parents) -> Vec<u8> {
    let mut page = page_of(list, 0);
    page.truncate(2 + PAIR_BYTES * list.len());
    page.extend(parents.0);
    page
}

/// The table of the pairs, but with the parents of another.
pub fn with_parents_of(list: &[Pair], other: &[Pair]) -> Vec<u8> {
    with_parents(list, &Pairs(other.to_vec()).parents())
}

/// Any bits, and those of numbers that a careless translation would treat apart.
fn some_factor(random: &mut Random) -> u64 {
    let special = [
        0.0,
        -0.0,
        1.0,
        -1.0,
        25.4,
        f64::MIN_POSITIVE / 2.0,
        f64::MAX,
        f64::INFINITY,
        f64::NEG_INFINITY,
        f64::NAN,
    ];
    match random.below(4) {
        0 => random.pick(&special).to_bits(),
        // A NaN that is none of the usual ones.
        1 => 0x7FF0_0000_0000_0001 | random.word(),
        _ => random.word(),
    }
}

/// So many pairs over the symbols below `bound`, repeats and (x, x) among them.
pub fn some_list(random: &mut Random, count: usize, bound: usize) -> Vec<Pair> {
    let mut list: Vec<Pair> = Vec::new();
    while list.len() < count {
        let symbol = random.below(bound) as u8;
        let base = if random.once_in(12) { symbol } else { random.below(bound) as u8 };
        let pair = Pair { symbol, factor: some_factor(random), base };
        let repeated = !list.is_empty() && random.once_in(10);
        list.push(if repeated { *random.pick(&list) } else { pair });
    }
    list
}

/// The table with parents that its pairs do not give, or seldom just those.
fn with_wrong_parents(list: &[Pair], random: &mut Random) -> Vec<u8> {
    let mut parents = Pairs(list.to_vec()).parents();
    let symbol = if list.is_empty() { random.byte() } else { random.pick(list).base };
    let root = parents.root(symbol);
    match random.below(6) {
        0 => return with_parents_of(list, &turned(list)),
        1 => return with_parents_of(list, &reversed(list)),
        2 => return with_parents_of(list, &list[..list.len().saturating_sub(1)]),
        // A walk made shorter, a circle, any other parent.
        3 => parents.0[usize::from(symbol)] = root,
        4 => parents.0[usize::from(root)] = symbol,
        _ => parents.0[usize::from(symbol)] = random.byte(),
    }
    with_parents(list, &parents)
}

/// A page of the pairs with about as much room as one more needs, seldom damaged.
pub fn page_for(list: &[Pair], random: &mut Random) -> Vec<u8> {
    let mut page =
        if random.once_in(12) { with_wrong_parents(list, random) } else { page_of(list, 0) };
    let room = *random.pick(&[0, 1, PAIR_BYTES - 1, PAIR_BYTES, PAIR_BYTES, PAIR_BYTES + 1, 40]);
    page.resize(page.len() + room, 0);
    match random.below(12) {
        0 => damaged_somewhere(&page, random),
        _ => page,
    }
}

/// A names page for the symbols below `bound`, seldom damaged.
fn names_for(random: &mut Random, bound: usize) -> Vec<u8> {
    let names = match bound {
        MAX_NAMES => shortest_names(bound),
        _ => different_names(random, bound),
    };
    let mut page = table(&names);
    page.resize(page.len() + random.below(4), 0);
    match random.below(15) {
        0 => damaged_somewhere(&page, random),
        _ => page,
    }
}

/// A names page that is not lent: a table of few names, or any bytes.
fn names_not_lent(random: &mut Random) -> Vec<u8> {
    let count = random.below(9);
    match random.below(2) {
        0 => table(&different_names(random, count)),
        _ => (0..count).map(|_| random.byte()).collect(),
    }
}

/// A pair table on its page, the names beside it, and the number below which its symbols lie.
struct Setting {
    list: Vec<Pair>,
    page: Vec<u8>,
    names: Vec<u8>,
    lent: bool,
    bound: usize,
}

fn some_setting(random: &mut Random) -> Setting {
    let bound = *random.pick(&[1, 2, 3, 5, 9, 9, MAX_NAMES]);
    let lent = random.once_in(2) && (bound < MAX_NAMES || random.once_in(4));
    let names = if lent { names_for(random, bound) } else { names_not_lent(random) };
    let count = match random.below(60) {
        0 => *random.pick(&[MAX_PAIRS - 1, MAX_PAIRS, MAX_PAIRS, MAX_PAIRS + 1]),
        _ => random.below(7),
    };
    let mut list = some_list(random, count, bound);
    // Seldom a pair with a symbol or a base that is not in use.
    if count > 0 && bound < MAX_NAMES && random.once_in(12) {
        let pair = &mut list[random.below(count)];
        *(if random.once_in(2) { &mut pair.symbol } else { &mut pair.base }) = bound as u8;
    }
    let page = page_for(&list, random);
    Setting { list, page, names, lent, bound }
}

/// A symbol below `bound`; seldom the first that is not, or any.
fn some_symbol(random: &mut Random, bound: usize) -> u8 {
    match random.below(20) {
        0 => bound as u8,
        1 => random.byte(),
        _ => random.below(bound) as u8,
    }
}

/// Two units whose group sums are equal or nearly so, each seldom out of form.
fn some_units(random: &mut Random, setting: &Setting) -> [Vec<u8>; 2] {
    // Seldom with a symbol that is not in use.
    let bound = if random.once_in(12) { setting.bound + 1 } else { setting.bound };
    let units = near_units(random, &Groups::of(&setting.list), bound.min(MAX_NAMES));
    units.map(|terms| some_bytes(random, terms))
}

pub fn some_bytes(random: &mut Random, terms: Vec<Term>) -> Vec<u8> {
    match random.below(16) {
        0 => damaged_somewhere(&unit_bytes(&terms), random),
        1 => unit_bytes(&broken_terms(random, terms)),
        _ => bytes_or_none(random, &terms),
    }
}

// ---- One random question of each call ----

pub fn empty_pairs(random: &mut Random) -> Question {
    let length = *random.pick(&[0, 1, 2, 257, 258, 259, 268, 300]);
    let page: Vec<u8> = (0..length).map(|_| random.byte()).collect();
    Question::empty_pairs(&page)
}

pub fn insert_pair(random: &mut Random) -> Question {
    let Setting { list, page, names, lent, bound } = some_setting(random);
    let factor = some_factor(random);
    let (symbol, base) = if list.is_empty() || random.once_in(2) {
        (some_symbol(random, bound), some_symbol(random, bound))
    } else {
        (random.pick(&list).symbol, random.pick(&list).base)
    };
    Question::insert_pair(&page, &names, lent, Pair { symbol, factor, base })
}

pub fn canonical(random: &mut Random) -> Question {
    let Setting { page, names, lent, bound, .. } = some_setting(random);
    Question::canonical(&page, &names, lent, some_symbol(random, bound).into())
}

pub fn factor(random: &mut Random) -> Question {
    let Setting { page, names, lent, bound, .. } = some_setting(random);
    Question::factor(&page, &names, lent, some_symbol(random, bound).into())
}

pub fn canonicalize(random: &mut Random) -> Question {
    let setting = some_setting(random);
    let [unit, _] = some_units(random, &setting);
    Question::canonicalize(&setting.page, &setting.names, setting.lent, &unit)
}

pub fn is_convertible_to(random: &mut Random) -> Question {
    let setting = some_setting(random);
    let [left, right] = some_units(random, &setting);
    Question::is_convertible_to(&setting.page, &setting.names, setting.lent, &left, &right)
}

/// Group sums, or convertibility, of any bytes.
fn units_of_any(random: &mut Random) -> Question {
    let Setting { page, names, lent, bound, .. } = some_setting(random);
    let [left, right] = [(); 2].map(|()| any_unit(random, bound));
    match random.below(3) {
        0 => Question::canonicalize(&page, &names, lent, &left),
        1 => Question::is_convertible_to(&page, &names, lent, &left, &[0]),
        _ => Question::is_convertible_to(&page, &names, lent, &left, &right),
    }
}
