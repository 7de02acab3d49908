//! Tables grown pair by pair: each insertion gets the page as the last one left it,
//! and the grown table is asked about every symbol and about units.

use super::groups::{bytes_or_none, near_units, Groups};
use super::{names_not_lent, pair, reversed, some_factor, some_list, turned};
use crate::call::Question;
use crate::inputs::names::{shortest_names, table};
use crate::inputs::Sink;
use crate::limits::{MAX_NAMES, MAX_PAIRS, PAIR_BYTES};
use crate::pairs::{table_bytes, Pair, Pairs};
use crate::random::Random;

/// How many rounds make a random list, which is many questions.
const ROUNDS_OF_A_LIST: usize = 200;

pub fn questions(random: &mut Random, rounds: usize, ask: Sink) {
    small_lists(random, ask);
    extreme_lists(random, ask);
    for _ in 0..rounds / ROUNDS_OF_A_LIST {
        random_list(random, ask);
    }
}

/// The page after the pairs are inserted into an empty table on a page of the given length.
fn grown(list: &[Pair], length: usize, names: &[u8], lent: bool, ask: Sink) -> Vec<u8> {
    let mut page = ask(Question::empty_pairs(&vec![0xEE; length])).page;
    for &pair in list {
        page = ask(Question::insert_pair(&page, names, lent, pair)).page;
    }
    page
}

/// Asks a grown table for the root and the factor of each symbol up to `last`.
fn symbols(page: &[u8], names: &[u8], lent: bool, last: u16, ask: Sink) {
    for symbol in 0..=last {
        ask(Question::canonical(page, names, lent, symbol));
        ask(Question::factor(page, names, lent, symbol));
    }
}

/// Asks a grown table about so many units over the symbols of its pairs.
fn units(page: &[u8], names: &[u8], lent: bool, count: usize, random: &mut Random, ask: Sink) {
    let Pairs(list) = Pairs::read(page).expect("a page that insertions left");
    let groups = Groups::of(&list);
    let last = list.iter().map(|pair| pair.symbol.max(pair.base)).max().unwrap_or(0);
    for _ in 0..count {
        let units = near_units(random, &groups, usize::from(last) + 1);
        let [left, right] = units.map(|terms| bytes_or_none(random, &terms));
        ask(Question::canonicalize(page, names, lent, &left));
        ask(Question::is_convertible_to(page, names, lent, &left, &right));
    }
}

/// Every list of three pairs over three symbols.
fn small_lists(random: &mut Random, ask: Sink) {
    let all: Vec<Pair> =
        (0..3).flat_map(|symbol| (0..3).map(move |base| pair(symbol, base))).collect();
    for &first in &all {
        for &second in &all {
            for &third in &all {
                let list = [first, second, third];
                let page = grown(&list, table_bytes(list.len()), b"", false, ask);
                symbols(&page, b"", false, 3, ask);
                units(&page, b"", false, 4, random, ask);
            }
        }
    }
}

fn grow_and_ask(
    list: &[Pair],
    length: usize,
    names: &[u8],
    lent: bool,
    random: &mut Random,
    ask: Sink,
) {
    let page = grown(list, length, names, lent, ask);
    symbols(&page, names, lent, 255, ask);
    units(&page, names, lent, 60, random, ask);
}

/// A list in both orders, over few symbols or many, short or past the limit, on a
/// page that holds all of it or not.
fn random_list(random: &mut Random, ask: Sink) {
    let bound = *random.pick(&[2, 3, 5, 10, 10, 40, MAX_NAMES]);
    let count = match random.below(12) {
        0 => MAX_PAIRS + 2,
        1 | 2 => random.below(200),
        _ => random.below(40),
    };
    let list = some_list(random, count, bound);
    let room = *random.pick(&[0, 1, PAIR_BYTES - 1, PAIR_BYTES, 1_000]);
    let fitting = count.min(MAX_PAIRS).saturating_sub(random.below(2));
    let length = table_bytes(fitting) + room;
    let lent = random.once_in(3);
    let names = if lent { table(&shortest_names(bound)) } else { names_not_lent(random) };
    grow_and_ask(&list, length, &names, lent, random, ask);
    grow_and_ask(&reversed(&list), length, &names, lent, random, ask);
}

/// Lists that join all symbols or many and go on past 512 pairs, in both orders.
fn extreme_lists(random: &mut Random, ask: Sink) {
    // 255 steps from 0 up to 255, and as many from 255 down to 0.
    let up: Vec<Pair> = (0..255).map(|symbol| pair(symbol + 1, symbol)).collect();
    let down: Vec<Pair> = (0..255).rev().map(|symbol| pair(symbol, symbol + 1)).collect();
    // All below one symbol, and one symbol below others in turn, each time by a longer walk.
    let star: Vec<Pair> = (1..=255).map(|base| pair(0, base)).collect();
    let bottom: Vec<Pair> = (1..64).map(|symbol| pair(symbol, 0)).collect();
    let halves = joined_halves();

    let full = table_bytes(MAX_PAIRS);
    for list in [up, down, star, bottom, turned(&halves), halves] {
        for list in [reversed(&list), list] {
            let list = past_the_limit(list, random);
            grow_and_ask(&list, full + PAIR_BYTES, &[255], false, random, ask);
        }
    }
    let any = some_list(random, MAX_PAIRS + 2, MAX_NAMES);
    let names = table(&shortest_names(MAX_NAMES));
    grow_and_ask(&any, full, &names, true, random, ask);
}

/// Joins all symbols two by two, then these groups two by two, and so on.
fn joined_halves() -> Vec<Pair> {
    let mut list = Vec::new();
    for power in 0..8 {
        let size = 1 << power;
        list.extend((0..=255).step_by(2 * size).map(|low| pair(low, low + size as u8)));
    }
    list
}

/// The list with pairs after it that join its two ends, and then repeats, (x, x) and
/// any others, two more than a table can have.
fn past_the_limit(mut list: Vec<Pair>, random: &mut Random) -> Vec<Pair> {
    let (first, last) = (list[0].base, list[list.len() - 1].symbol);
    list.extend([pair(first, last), pair(last, first), pair(first, first)]);
    while list.len() < MAX_PAIRS + 2 {
        let (symbol, base) = match random.below(40) {
            0 => (random.byte(), random.byte()),
            _ => (last, last),
        };
        list.push(Pair { symbol, factor: some_factor(random), base });
    }
    list
}
