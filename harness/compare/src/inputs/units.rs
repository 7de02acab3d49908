//! Questions about units.

use super::names::{different_names, name_of, shortest_names, table, table_on};
use super::unused::{any_unit, few_units, units as unused_units, wide, LOW, NAMES};
use super::{damaged_everywhere, damaged_somewhere, short_strings, Sink};
use crate::call::Question;
use crate::limits::{MAX_EXPONENT, MAX_NAMES, MAX_NAME_BYTES, MAX_SYMBOLS, NO_UNIT};
use crate::random::Random;
use crate::units::{unit_bytes, Term};

const LIMIT: i16 = MAX_EXPONENT as i16;

pub fn questions(random: &mut Random, rounds: usize, ask: Sink) {
    small_pairs(ask);
    short_units(ask);
    every_exponent(ask);
    every_count(ask);
    damaged_units(random, ask);
    longest_texts(random, ask);
    unused_symbols(ask);
    wide_symbols(ask);
    for _ in 0..rounds {
        ask(unit_form(random));
        ask(product(random));
        ask(product(random));
        ask(exponent(random));
        ask(is_dimensionless(random));
        ask(unit_text(random));
        ask(unit_text_of_any(random));
    }
}

// ---- Units ----

/// A nonzero exponent: small, near a limit, near half of one, or any.
pub fn some_exponent(random: &mut Random) -> i16 {
    let size = match random.below(8) {
        0..=3 => random.between(1, 3),
        4 | 5 => MAX_EXPONENT - random.between(0, 3),
        6 => MAX_EXPONENT / 2 + random.between(-1, 1),
        _ => random.between(1, MAX_EXPONENT),
    } as i16;
    if random.once_in(2) {
        size
    } else {
        -size
    }
}

/// Different symbols, ascending, all below `bound`.
pub fn some_symbols(random: &mut Random, count: usize, bound: usize) -> Vec<u8> {
    let mut symbols: Vec<u8> = Vec::new();
    while symbols.len() < count {
        let symbol = random.below(bound) as u8;
        if !symbols.contains(&symbol) {
            symbols.push(symbol);
        }
    }
    symbols.sort_unstable();
    symbols
}

fn with_exponents(random: &mut Random, symbols: &[u8]) -> Vec<Term> {
    symbols.iter().map(|&symbol| (symbol, some_exponent(random))).collect()
}

/// A unit in form over the symbols below `bound`.
pub fn some_terms(random: &mut Random, bound: usize) -> Vec<Term> {
    let count = random.below(bound.min(MAX_SYMBOLS) + 1);
    let symbols = some_symbols(random, count, bound);
    with_exponents(random, &symbols)
}

/// A breach of form that keeps the shape: exponent 0, an exponent out of range,
/// symbols equal, symbols not ascending.
pub fn broken_terms(random: &mut Random, mut terms: Vec<Term>) -> Vec<Term> {
    if terms.is_empty() {
        terms.push((random.byte(), 1));
    }
    let place = random.below(terms.len());
    match random.below(4) {
        0 => terms[place].1 = 0,
        1 => terms[place].1 = *random.pick(&[LIMIT + 1, -LIMIT - 1, i16::MAX, i16::MIN]),
        2 => {
            let (symbol, _) = terms[place];
            terms.insert(place, (symbol, 1));
            terms.truncate(MAX_SYMBOLS);
        }
        _ => {
            let other = random.below(terms.len());
            terms.swap(place, other);
        }
    }
    terms
}

/// Mostly a unit in form; else one that just misses it.
fn some_unit(random: &mut Random) -> Vec<u8> {
    let bound = *random.pick(&[3, 10, 256]);
    let terms = some_terms(random, bound);
    match random.below(8) {
        0 => damaged_somewhere(&unit_bytes(&terms), random),
        1 => unit_bytes(&broken_terms(random, terms)),
        2 => vec![255],
        _ => unit_bytes(&terms),
    }
}

// ---- One random question of each call ----

pub fn unit_form(random: &mut Random) -> Question {
    Question::unit_form(&some_unit(random))
}

pub fn is_dimensionless(random: &mut Random) -> Question {
    let unit = if random.once_in(6) { vec![0] } else { some_unit(random) };
    Question::is_dimensionless(&unit)
}

pub fn exponent(random: &mut Random) -> Question {
    let unit = some_unit(random);
    // A byte of the unit is often a symbol of it.
    let symbol = if random.once_in(3) || unit.len() < 2 {
        random.below(10) as u8
    } else {
        unit[1 + random.below(unit.len() - 1) / 3 * 3]
    };
    Question::exponent(&unit, symbol.into())
}

pub fn product(random: &mut Random) -> Question {
    let quotient = random.once_in(2);
    let (left, right) = match random.below(8) {
        0 | 1 => (some_terms(random, 10), some_terms(random, 10)),
        2 => apart(random),
        3 => cancelling(random, quotient),
        4 | 5 => near_the_limit(random, quotient),
        6 => too_large_and_too_many(random, quotient),
        _ => (some_terms(random, MAX_NAMES), some_terms(random, MAX_NAMES)),
    };
    let (left, right) = match random.below(12) {
        0 => (unit_bytes(&broken_terms(random, left)), unit_bytes(&right)),
        1 => (unit_bytes(&left), unit_bytes(&broken_terms(random, right))),
        2 => (damaged_somewhere(&unit_bytes(&left), random), unit_bytes(&right)),
        3 => (unit_bytes(&left), damaged_somewhere(&unit_bytes(&right), random)),
        _ => (unit_bytes(&left), unit_bytes(&right)),
    };
    Question::product(&left, &right, quotient)
}

/// Two units without a common symbol, of seven to nine symbols together.
fn apart(random: &mut Random) -> (Vec<Term>, Vec<Term>) {
    let count = MAX_SYMBOLS - 1 + random.below(3);
    let symbols = some_symbols(random, count, MAX_NAMES);
    divided(random, &symbols)
}

/// The symbols dealt to two units of at most eight each.
fn divided(random: &mut Random, symbols: &[u8]) -> (Vec<Term>, Vec<Term>) {
    let (mut left, mut right) = (Vec::new(), Vec::new());
    for symbol in symbols {
        let to_left = right.len() == MAX_SYMBOLS || left.len() < MAX_SYMBOLS && random.once_in(2);
        if to_left {
            left.push(*symbol)
        } else {
            right.push(*symbol)
        }
    }
    (with_exponents(random, &left), with_exponents(random, &right))
}

/// A unit and one that takes most of its symbols away.
fn cancelling(random: &mut Random, quotient: bool) -> (Vec<Term>, Vec<Term>) {
    let left = some_terms(random, 12);
    let mut right: Vec<Term> = left
        .iter()
        .map(|&(symbol, exponent)| (symbol, if quotient { exponent } else { -exponent }))
        .collect();
    if random.once_in(2) && !right.is_empty() {
        let place = random.below(right.len());
        right[place].1 = some_exponent(random);
    }
    if random.once_in(3) && !right.is_empty() {
        right.remove(random.below(right.len()));
    }
    (left, right)
}

/// Two units over the same symbols whose exponents give about ±1,000.
fn near_the_limit(random: &mut Random, quotient: bool) -> (Vec<Term>, Vec<Term>) {
    let left = some_terms(random, 9);
    let mut right = Vec::new();
    for &(symbol, exponent) in &left {
        // Mostly inside the limit, so that a unit of many symbols can pass.
        let target = *random.pick(&[LIMIT, LIMIT, LIMIT, LIMIT - 1, LIMIT + 1, 0, 1]);
        let target = if random.once_in(2) { target } else { -target };
        let needed = if quotient { exponent - target } else { target - exponent };
        if needed != 0 && (-LIMIT..=LIMIT).contains(&needed) {
            right.push((symbol, needed));
        }
    }
    (left, right)
}

/// Nine symbols, and one of them past the limit: the lower refusal comes first.
fn too_large_and_too_many(random: &mut Random, quotient: bool) -> (Vec<Term>, Vec<Term>) {
    let symbols = some_symbols(random, MAX_SYMBOLS + 1, MAX_NAMES);
    let (mut left, mut right) = divided(random, &symbols[1..]);
    let size = LIMIT - random.below(2) as i16;
    left.insert(0, (symbols[0], size));
    right.insert(
        0,
        (symbols[0], if quotient { -random.between(1, 2) } else { random.between(1, 2) } as i16),
    );
    left.truncate(MAX_SYMBOLS);
    right.truncate(MAX_SYMBOLS);
    (left, right)
}

pub fn unit_text(random: &mut Random) -> Question {
    let count = if random.once_in(60) { MAX_NAMES } else { random.below(13) };
    let names = different_names(random, count);
    let mut page = table(&names);
    page.resize(page.len() + random.below(4), 0);

    // Mostly the symbols in use; seldom one more.
    let bound = if random.once_in(8) { count + 1 } else { count.max(1) }.min(MAX_NAMES);
    let terms = some_terms(random, bound);
    let unit = match random.below(10) {
        0 => unit_bytes(&broken_terms(random, terms)),
        1 => damaged_somewhere(&unit_bytes(&terms), random),
        _ => unit_bytes(&terms),
    };
    let page = if random.once_in(12) { damaged_somewhere(&page, random) } else { page };
    Question::unit_text(&page, &unit)
}

fn unit_text_of_any(random: &mut Random) -> Question {
    let count = 1 + random.below(12);
    Question::unit_text(&table(&shortest_names(count)), &any_unit(random, count))
}

// ---- Exhaustive and damaged questions ----

/// All units of up to two terms over three symbols and nine exponents, those out of form included.
fn small_units() -> Vec<Vec<u8>> {
    let exponents = [-LIMIT, 1 - LIMIT, -2, -1, 0, 1, 2, LIMIT - 1, LIMIT];
    let terms: Vec<Term> =
        (0..3).flat_map(|symbol| exponents.map(|exponent| (symbol, exponent))).collect();
    let mut units = vec![unit_bytes(&[])];
    units.extend(terms.iter().map(|&term| unit_bytes(&[term])));
    for &first in &terms {
        units.extend(terms.iter().map(|&second| unit_bytes(&[first, second])));
    }
    units
}

/// All pairs of small units under both operators, and all calls on each.
fn small_pairs(ask: Sink) {
    let units = small_units();
    for left in &units {
        for right in &units {
            ask(Question::product(left, right, false));
            ask(Question::product(left, right, true));
        }
        ask_all(left, ask);
    }
}

/// Every call on one unit. The table has three names whose order is not that of their numbers.
fn ask_all(unit: &[u8], ask: Sink) {
    ask(Question::unit_form(unit));
    ask(Question::is_dimensionless(unit));
    for symbol in [0, 1, 2, 3, 255] {
        ask(Question::exponent(unit, symbol));
    }
    for names in [table_on(&["s", "mm", "m"], 0), table_on(&["m", "S", "_", "m0"], 20)] {
        ask(Question::unit_text(&names, unit));
    }
}

/// Every string of up to two bytes as a unit.
fn short_units(ask: Sink) {
    for unit in short_strings() {
        ask_all(&unit, ask);
        ask(Question::product(&unit, &[0], false));
        ask(Question::product(&[0], &unit, true));
    }
}

/// Every pair of exponent bytes, in the first place and in the last of eight.
fn every_exponent(ask: Sink) {
    for exponent in i16::MIN..=i16::MAX {
        let one = unit_bytes(&[(2, exponent)]);
        ask_all(&one, ask);
        ask(Question::product(&one, &[1, 2, 0, 1], false));
        ask(Question::product(&[1, 1, 0, 1], &one, true));
        let mut eight: Vec<Term> = (0..7).map(|symbol| (symbol, 1)).collect();
        eight.push((7, exponent));
        ask(Question::unit_form(&unit_bytes(&eight)));
        ask(Question::exponent(&unit_bytes(&eight), 7));
    }
}

/// Every count byte with the length it asks for, and a little less and more.
fn every_count(ask: Sink) {
    for count in 0..=255_u8 {
        let terms: Vec<Term> = (0..count).map(|symbol| (symbol, 1)).collect();
        let unit = unit_bytes(&terms);
        for cut in 0..unit.len().min(5) {
            ask_all(&unit[..unit.len() - cut], ask);
        }
        for extra in 1..=4 {
            ask_all(&[unit.clone(), vec![0; extra]].concat(), ask);
        }
        ask_all(&[&[count][..], &[0, 0, 1]].concat(), ask);
    }
}

fn damaged_units(random: &mut Random, ask: Sink) {
    for count in 0..=MAX_SYMBOLS {
        for _ in 0..4 {
            let symbols = some_symbols(random, count, 9);
            let unit = unit_bytes(&with_exponents(random, &symbols));
            for damaged in damaged_everywhere(&unit, random) {
                ask_all(&damaged, ask);
                ask(Question::product(&damaged, &unit, random.once_in(2)));
                ask(Question::product(&unit, &damaged, random.once_in(2)));
            }
        }
    }
}

/// Eight of the longest names with the widest exponents: all below the line, all above, mixed.
fn longest_texts(random: &mut Random, ask: Sink) {
    for _ in 0..50 {
        let names: Vec<Vec<u8>> =
            (0..MAX_SYMBOLS).map(|_| name_of(random, MAX_NAME_BYTES)).collect();
        let page = table(&names);
        for signs in [0, 255, random.byte()] {
            let terms: Vec<Term> = (0..MAX_SYMBOLS as u8)
                .map(|symbol| (symbol, if signs >> symbol & 1 == 1 { LIMIT } else { -LIMIT }))
                .collect();
            let unit = unit_bytes(&terms);
            ask(Question::unit_text(&page, &unit));
            for damaged in damaged_everywhere(&unit, random) {
                ask(Question::unit_text(&page, &damaged));
            }
        }
        let damaged = damaged_somewhere(&page, random);
        ask(Question::unit_text(&damaged, &[1, 0, 0, 1]));
    }
}

/// Units of any length with symbols in use and not, beside no name, some, all, and a table
/// that is not in form; and the calls that look no symbol up.
fn unused_symbols(ask: Sink) {
    let mut pages: Vec<Vec<u8>> =
        [0, 1, NAMES, MAX_NAMES].map(|count| table(&shortest_names(count))).to_vec();
    pages.push(table_on(&["m", "m"], 0));
    for unit in unused_units().iter().chain(&few_units()) {
        for page in &pages {
            ask(Question::unit_text(page, unit));
        }
        ask(Question::unit_form(unit));
        ask(Question::is_dimensionless(unit));
        ask(Question::exponent(unit, 0));
        ask(Question::product(unit, &[1, 1, 0, 1], false));
        ask(Question::product(&[1, 1, 0, 1], unit, true));
    }
}

/// Numbers too large for a symbol, of units that have what their low bytes say.
fn wide_symbols(ask: Sink) {
    let low = LOW.map(|symbol| (symbol, LIMIT));
    let eight: Vec<Term> = (0..MAX_SYMBOLS as u8).map(|symbol| (symbol, -1)).collect();
    for unit in [&unit_bytes(&low), &unit_bytes(&eight), &[0][..], &NO_UNIT, &[9], &[1, 0, 0]] {
        for symbol in wide() {
            ask(Question::exponent(unit, symbol));
        }
    }
}
