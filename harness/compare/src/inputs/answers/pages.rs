//! Stores, pair tables and names in form and broken, numbers not in use, broken units, and
//! several faults at once.

use super::operands::{besides, operand, several, Beside, EQUAL, IN, MINUS, MM, NAMES, PLUS, S};
use crate::call::{Operand, Pages, Question};
use crate::inputs::names::{shortest_names, table, table_on};
use crate::inputs::pairs::{page_of as pairs_page, pair, pairs, reversed, turned, with_parents_of};
use crate::inputs::types::shapes::{
    array, named, over, stored, A, ANY, ARRAY, B, CALLBACK, CANY, HANDLE, INT, MAP, SET,
};
use crate::inputs::types::small_stores;
use crate::inputs::unused::{few_units, lendings, units};
use crate::inputs::{damaged_everywhere, Sink};
use crate::limits::{FIXED_TYPES, FUNCTION, MAX_NAMES, MAX_PAIRS, MAX_SYMBOLS, NO_UNIT, UNKNOWN};
use crate::pairs::Pair;
use crate::random::Random;
use crate::types::store::{page_of, Entry};
use crate::units::{unit_bytes, Term};

/// Page lengths that are tried one by one, of a store and of a pair table.
const SHORT_PAGES: usize = 40;
const SHORT_PAIRS: usize = 300;

/// The number of a store's first type.
const FIRST: u32 = FIXED_TYPES as u32;

pub fn questions(random: &mut Random, ask: Sink) {
    short_stores(ask);
    damaged_stores(random, ask);
    broken_pairs(random, ask);
    names_beside(ask);
    numbers(ask);
    broken_units(random, ask);
    faults_at_once(ask);
    unused_symbols(ask);
    unused_at_once(ask);
}

/// Each call once on these pages, about the first type of the store, the second and Int.
fn ask_each(pages: Pages, ask: Sink) {
    let (mm, inch) = (unit_bytes(&[(MM, 1)]), unit_bytes(&[(IN, 1)]));
    let (first, second, int) = (operand(FIRST, &mm), operand(FIRST + 1, &inch), operand(INT, &mm));
    ask(Question::check_binary_operator(pages, PLUS, first, int));
    ask(Question::check_binary_operator(pages, EQUAL, second, second));
    ask(Question::check_unary_operator(pages, MINUS, first));
    ask(Question::check_index(pages, second, INT.into()));
}

/// Stores without unions and with some, which pass an operator or an index or do not.
fn stores() -> Vec<Vec<u8>> {
    let entries = [
        vec![Entry::of(ANY, &[2, 5]), Entry::of(CANY, &[19, 1])],
        vec![Entry::of(ANY, &[1, 2]), Entry::of(ARRAY, &[19]), Entry::named(HANDLE, B)],
        vec![Entry::of(SET, &[5]), Entry::of(MAP, &[1, 19]), Entry::of(ANY, &[19, 20])],
        vec![Entry::of(ARRAY, &[1]), Entry::of(ANY, &[19, 19]), Entry::of(ANY, &[])],
    ];
    let with_unions = entries.iter().map(|entries| page_of(entries, 0));
    small_stores().into_iter().chain(with_unions).collect()
}

/// Stores cut at each short length or followed by zeros, and very long ones.
fn short_stores(ask: Sink) {
    let besides = besides();
    for length in (0..=SHORT_PAGES).chain([1_000, 65_536, 70_000]) {
        for mut store in stores().into_iter().chain([vec![0; length], vec![255; length]]) {
            store.resize(length, 0);
            besides[2..4].iter().for_each(|beside| ask_each(beside.with(&store), ask));
        }
    }
}

fn damaged_stores(random: &mut Random, ask: Sink) {
    let besides = besides();
    for store in stores() {
        for room in [0, 7] {
            let store = [&store[..], &vec![0; room]].concat();
            for damaged in damaged_everywhere(&store, random) {
                ask_each(random.pick(&besides).with(&damaged), ask);
            }
        }
    }
}

/// One sum over a pair table, which is in form or not.
fn ask_sum(names: &[u8], lent: bool, pairs: &[u8], ask: Sink) {
    let (mm, inch) = (unit_bytes(&[(MM, 1)]), unit_bytes(&[(IN, 1)]));
    let pages = Pages { store: &[0, 0], names, lent, pairs };
    let [left, right] = [&mm, &inch].map(|unit| operand(INT, unit));
    ask(Question::check_binary_operator(pages, PLUS, left, right));
}

/// Tables of each short length, damaged, with parents that other pairs would give, and with
/// about 512 pairs.
fn broken_pairs(random: &mut Random, ask: Sink) {
    let names = table(&shortest_names(NAMES));
    let lists = [pairs(&[]), pairs(&[(IN, MM)]), pairs(&[(IN, MM), (S, IN), (3, S)])];
    let mut pages = Vec::new();
    for list in &lists {
        let page = pairs_page(list, 0);
        pages.extend((0..=SHORT_PAIRS).map(|length| {
            let mut page = page.clone();
            page.resize(length, 0);
            page
        }));
        pages.extend(damaged_everywhere(&[&page[..], &[0; 3]].concat(), random));
        pages.push(with_parents_of(list, &turned(list)));
        pages.push(with_parents_of(list, &reversed(list)));
        pages.push(with_parents_of(list, &[]));
        pages.push(with_parents_of(&[], list));
    }
    for count in [MAX_PAIRS - 1, MAX_PAIRS, MAX_PAIRS + 1] {
        let list: Vec<Pair> = (0..count).map(|place| pair(place as u8 % 3, 0)).collect();
        pages.push(pairs_page(&list, 0));
    }
    pages.extend([vec![0; 1_000], vec![255; 1_000], pairs_page(&lists[1], 70_000)]);
    for page in &pages {
        ask_sum(&names, true, page, ask);
        ask_sum(&[1], false, page, ask);
    }
}

/// Tables of none to three names, of all 256 and broken ones, beside stores, pair tables and
/// units whose names are among them and not.
fn names_beside(ask: Sink) {
    let words = ["a", "b", "c"];
    let mut names: Vec<Vec<u8>> =
        (0..=words.len()).map(|count| table_on(&words[..count], 12)).collect();
    for count in [MAX_NAMES - 1, MAX_NAMES, MAX_NAMES + 1] {
        names.push(table(&shortest_names(count)));
    }
    names.extend([table_on(&["a", "a", "c"], 0), table_on(&["a", "2"], 0), vec![0], Vec::new()]);
    names.push([table_on(&words, 0), vec![1]].concat());
    let mut stores = stores();
    for name in [A, 2, 254, 255] {
        stores.push(stored([&array(named(HANDLE, name)), &over(ANY, &[INT])], 9).0);
    }
    let lists = [pairs(&[]), pairs(&[(IN, MM)]), pairs(&[(2, 1)]), pairs(&[(MM, 255)])];
    for store in &stores {
        for names in &names {
            for list in &lists {
                for lent in [true, false] {
                    let pairs = pairs_page(list, 0);
                    let pages = Pages { store, names, lent, pairs: &pairs };
                    ask_each(pages, ask);
                    for symbol in [1, 2, 255] {
                        let unit = unit_bytes(&[(symbol, 1)]);
                        ask_with(pages, operand(INT, &unit), ask);
                    }
                }
            }
        }
    }
}

/// An operand in every place, beside one that is in use and in form.
fn ask_with(pages: Pages, given: Operand, ask: Sink) {
    let good = operand(INT, &NO_UNIT);
    ask(Question::check_binary_operator(pages, PLUS, given, good));
    ask(Question::check_binary_operator(pages, PLUS, good, given));
    ask(Question::check_unary_operator(pages, MINUS, given));
    ask(Question::check_index(pages, given, INT.into()));
}

/// Numbers in use and not in every place, and Functions that are none.
fn numbers(ask: Sink) {
    let shapes = [&over(CALLBACK, &[INT, INT]), &over(ANY, &[INT]), &over(ARRAY, &[INT])];
    let (store, [callback, union, last]) = stored(shapes, 9);
    let last = u32::from(last);
    let numbers = [0, 1, 18, callback.into(), union.into(), last, last + 1, 4_095, 65_535];
    let codes: Vec<u32> = numbers
        .iter()
        .flat_map(|&number| [number, FUNCTION + number, UNKNOWN + number])
        .chain([u32::MAX, FUNCTION << 8, 1 << 31])
        .collect();
    let besides = besides();
    for &code in &codes {
        for op in [0, PLUS, MINUS, EQUAL, 11, 13, 14, 256 + 1, 65_536 + 1, u32::MAX] {
            let pages = besides[0].with(&store);
            ask(Question::check_unary_operator(pages, op, operand(code, &[0])));
            for &other in &codes {
                let (left, right) = (operand(code, &[0]), operand(other, &NO_UNIT));
                ask(Question::check_binary_operator(pages, op, left, right));
            }
        }
        for &other in &codes {
            let target = operand(code, &NO_UNIT);
            ask(Question::check_index(besides[1].with(&store), target, other));
        }
    }
}

/// Units harmed in every place, under every call.
fn broken_units(random: &mut Random, ask: Sink) {
    let besides = besides();
    let (store, [union]) = stored([&over(ANY, &[INT])], 0);
    let units: [&[Term]; 4] = [&[], &[(MM, 1)], &[(MM, 1), (S, -1000)], &several(0, MAX_SYMBOLS)];
    for terms in units {
        for unit in damaged_everywhere(&unit_bytes(terms), random) {
            for beside in &besides[..2] {
                ask_with(beside.with(&store), operand(INT, &unit), ask);
                ask_with(beside.with(&store), operand(union, &unit), ask);
            }
        }
    }
    for unit in [&[][..], &[255, 0], &[255, 0, 0, 1], &[254], &[9], &[9, 0, 0, 1]] {
        besides.iter().for_each(|beside| ask_with(beside.with(&store), operand(INT, unit), ask));
    }
}

/// Every set of these faults: the operator's code, the store, the names, the pair table, a
/// number or a symbol not in use, a unit out of form, each on the left or on the right.
fn faults_at_once(ask: Sink) {
    let good = Beside {
        names: table_on(&["a", "b"], 0),
        lent: true,
        pairs: pairs_page(&pairs(&[(IN, MM)]), 0),
    };
    let (store, [array]) = stored([&over(ARRAY, &[INT])], 0);
    let broken = [&store[..], &[1]].concat();
    let (names, pairs) = (table_on(&["a", "a"], 0), vec![0; 258]);
    for faults in 0..1 << 8 {
        let has = |fault: u32| faults >> fault & 1 == 1;
        let op = if has(0) { 14 } else { PLUS };
        let pages = Pages {
            store: if has(1) { &broken } else { &store },
            names: if has(2) { &names } else { &good.names },
            lent: true,
            pairs: if has(3) { &pairs } else { &good.pairs },
        };
        let [left, right] = [4, 6].map(|from| {
            let number = if has(from) { array + 1 } else { array };
            let unit: &[u8] = if has(from + 1) { &[1, MM, 0, 0] } else { &[1, MM, 0, 1] };
            operand(number, unit)
        });
        ask(Question::check_binary_operator(pages, op, left, right));
        let unused = operand(array, &[2, IN, 0, 0, 2, 0, 1]);
        ask(Question::check_binary_operator(pages, op, left, unused));
        ask(Question::check_binary_operator(pages, op, unused, right));
        ask(Question::check_unary_operator(pages, op, left));
        ask(Question::check_index(pages, left, right.checked));
    }
}

/// Units of any length with symbols in use and not, in every place.
fn unused_symbols(ask: Sink) {
    let pairs = pairs_page(&pairs(&[(IN, MM)]), 0);
    let (store, [union, array]) = stored([&over(ANY, &[INT]), &over(ARRAY, &[INT])], 0);
    for (names, lent) in lendings() {
        let pages = Pages { store: &store, names: &names, lent, pairs: &pairs };
        for unit in &units() {
            ask_with(pages, operand(INT, unit), ask);
        }
        for unit in &few_units() {
            ask_with(pages, operand(union, unit), ask);
            ask_with(pages, operand(array, unit), ask);
            ask_with(pages, operand(array + 1, unit), ask);
            ask_with(pages, operand(UNKNOWN, unit), ask);
        }
    }
}

/// A few of these units with each other, beside an undefined operator, a store or a pair
/// table that is not in form, and numbers that are not in use.
fn unused_at_once(ask: Sink) {
    let pairs = pairs_page(&pairs(&[(IN, MM)]), 0);
    let (store, [array]) = stored([&over(ARRAY, &[INT])], 0);
    let broken = [&store[..], &[1]].concat();
    let few = few_units();
    for (names, lent) in lendings() {
        for faults in 0..1 << 5 {
            let has = |fault: u32| faults >> fault & 1 == 1;
            let pages = Pages {
                store: if has(0) { &broken } else { &store },
                names: &names,
                lent,
                pairs: if has(1) { &pairs[1..] } else { &pairs },
            };
            let op = if has(2) { 14 } else { PLUS };
            let [left, right] = [3, 4].map(|fault| if has(fault) { array + 1 } else { INT.into() });
            for left_unit in &few {
                let left = operand(left, left_unit);
                ask(Question::check_unary_operator(pages, op, left));
                ask(Question::check_index(pages, left, right.into()));
                for right_unit in &few {
                    let right = operand(right, right_unit);
                    ask(Question::check_binary_operator(pages, op, left, right));
                }
            }
        }
    }
}
