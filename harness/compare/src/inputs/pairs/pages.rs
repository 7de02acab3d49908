//! Pages of every short length and of great ones, tables with and without room,
//! damaged pages, and names beside them.

use super::{
    page_of, pair, pairs, reversed, some_list, turned, with_parents, with_parents_of, Symbols,
};
use crate::call::Question;
use crate::inputs::names::{shortest_names, table, table_on};
use crate::inputs::unused::{few_units, lendings, units, wide, LOW, WIDE};
use crate::inputs::{damaged_everywhere, Sink};
use crate::limits::{EMPTY_PAIRS_BYTES, MAX_NAMES, MAX_PAIRS, NO_UNIT, PAIR_BYTES};
use crate::pairs::{table_bytes, Pair, Pairs};
use crate::random::Random;
use crate::units::{unit_bytes, Term};

/// Page lengths that are tried one by one.
const SHORT_PAGES: usize = 300;

pub fn questions(random: &mut Random, ask: Sink) {
    short_pages(ask);
    places_left(ask);
    damaged_tables(random, ask);
    broken_tables(ask);
    long_pages(random, ask);
    names_beside(ask);
    unused_symbols(ask);
    wide_symbols(ask);
}

/// Each call once on that page, with these names.
fn ask_each(page: &[u8], names: &[u8], lent: bool, ask: Sink) {
    ask(Question::empty_pairs(page));
    ask(Question::insert_pair(page, names, lent, pair(2, 0)));
    ask(Question::canonical(page, names, lent, 0));
    ask(Question::factor(page, names, lent, 1));
    let (left, right) = (unit_bytes(&[(0, 1), (1, 1)]), unit_bytes(&[(2, 2)]));
    ask(Question::canonicalize(page, names, lent, &left));
    ask(Question::is_convertible_to(page, names, lent, &left, &right));
}

/// Units in form and not, over symbols that few tables of names have.
fn small_units() -> Vec<Vec<u8>> {
    let terms: [&[Term]; 10] = [
        &[],
        &[(0, 1)],
        &[(1, 1)],
        &[(0, 1), (1, -1)],
        &[(0, 1), (1, 1)],
        &[(0, 2)],
        &[(2, -1)],
        &[(0, 0), (2, 1)],
        &[(1, 1), (0, 1)],
        &[(0, 1001)],
    ];
    let mut units = terms.map(unit_bytes).to_vec();
    let others: [&[u8]; 6] = [&[], &[255], &[255, 0], &[9], &[1, 2, 0], &[9, 2, 0, 1]];
    units.extend(others.map(<[u8]>::to_vec));
    units
}

/// Every call in several ways on that page.
fn ask_all(page: &[u8], names: &[u8], lent: bool, ask: Sink) {
    ask(Question::empty_pairs(page));
    for (symbol, base) in [(0, 0), (0, 1), (1, 0), (2, 1), (1, 2), (255, 0), (0, 255)] {
        ask(Question::insert_pair(page, names, lent, pair(symbol, base)));
    }
    for symbol in [0, 1, 2, 3, 254, 255] {
        ask(Question::canonical(page, names, lent, symbol));
        ask(Question::factor(page, names, lent, symbol));
    }
    let units = small_units();
    for left in &units {
        ask(Question::canonicalize(page, names, lent, left));
        for right in &units {
            ask(Question::is_convertible_to(page, names, lent, left, right));
        }
    }
}

fn small_lists() -> Vec<Vec<Pair>> {
    vec![
        pairs(&[]),
        pairs(&[(1, 0)]),
        pairs(&[(1, 0), (2, 1), (0, 2)]),
        pairs(&[(0, 1), (2, 3), (3, 1), (3, 3)]),
    ]
}

/// Pages of each short length: of zeros, of 255s, and of tables cut short or followed by zeros.
fn short_pages(ask: Sink) {
    let names = table_on(&["mm", "in", "s"], 0);
    for length in 0..=SHORT_PAGES {
        let tables = small_lists().into_iter().map(|list| page_of(&list, 0));
        for mut page in tables.chain([vec![0; length], vec![255; length]]) {
            page.resize(length, 0);
            ask_each(&page, &names, true, ask);
            ask_each(&page, &[255], false, ask);
        }
    }
}

/// Tables with few pairs and with about 512, on pages with just enough room for
/// one more, with less and with more.
fn places_left(ask: Sink) {
    let names = table_on(&["mm", "in", "s"], 0);
    for count in [0, 1, 2, 5, MAX_PAIRS - 2, MAX_PAIRS - 1, MAX_PAIRS, MAX_PAIRS + 1] {
        let list: Vec<Pair> = (0..count).map(|place| pair(place as u8 % 3, 0)).collect();
        let page = page_of(&list, 0);
        for room in [0, 1, PAIR_BYTES - 1, PAIR_BYTES, PAIR_BYTES + 1, 2 * PAIR_BYTES] {
            let page = [page.clone(), vec![0; room]].concat();
            for (symbol, base) in [(1, 2), (2, 1), (1, 1), (3, 0), (0, 3)] {
                ask(Question::insert_pair(&page, &names, true, pair(symbol, base)));
                ask(Question::insert_pair(&page, &names, false, pair(symbol, base)));
            }
            ask_each(&page, &names, false, ask);
        }
    }
}

fn damaged_tables(random: &mut Random, ask: Sink) {
    let names = table_on(&["mm", "in", "s", "m"], 0);
    for list in small_lists() {
        for room in [0, PAIR_BYTES] {
            let page = [page_of(&list, 0), vec![0; room]].concat();
            for damaged in damaged_everywhere(&page, random) {
                ask_each(&damaged, &names, true, ask);
                ask_each(&damaged, b"", false, ask);
            }
        }
    }
}

/// Pages that look like a table: parents that other pairs would give, circles of
/// parents, shortened walks, counts that the page has no bytes for.
fn broken_tables(ask: Sink) {
    let chain = pairs(&[(1, 0), (2, 1), (3, 2)]);
    let flat = pairs(&[(3, 2), (3, 1), (3, 0)]);
    let mut pages = vec![
        vec![0; EMPTY_PAIRS_BYTES],
        vec![0; 1_000],
        with_parents_of(&chain, &flat),
        with_parents_of(&chain, &turned(&chain)),
        with_parents_of(&chain, &reversed(&chain)),
        with_parents_of(&chain, &chain[..2]),
        with_parents_of(&chain[..2], &chain),
        with_parents_of(&[], &chain),
        with_parents_of(&chain, &[]),
    ];
    // Two, three and four symbols in a circle.
    let circles: [&[Symbols]; 5] =
        [&[(1, 0)], &[(2, 0)], &[(3, 0)], &[(2, 1)], &[(254, 255), (255, 254)]];
    for circle in circles {
        let mut parents = Pairs(chain.clone()).parents();
        circle.iter().for_each(|&(child, parent)| parents.0[usize::from(child)] = parent);
        pages.push(with_parents(&chain, &parents));
    }
    for count in [4, 5, 255, 256, MAX_PAIRS, MAX_PAIRS + 1, 0x0300, 0x0303, 0xFFFF] {
        let mut page = page_of(&chain, 10_000);
        page[..2].copy_from_slice(&(count as u16).to_be_bytes());
        pages.push(page);
    }
    for page in pages {
        ask_all(&page, b"", false, ask);
        ask_all(&page, &table_on(&["mm", "in", "s", "m"], 0), true, ask);
    }
}

/// Pages of few pairs and of about 512, as short as can be and longer than any table,
/// one of them past two bytes of length: as they are, with another parent, and with a
/// byte other than zero right behind the table, farther on or at the end.
fn long_pages(random: &mut Random, ask: Sink) {
    let full = some_list(random, MAX_PAIRS, MAX_NAMES);
    for list in [&full[..], &full[..MAX_PAIRS - 1], &full[..7]] {
        let own = table_bytes(list.len());
        for length in [own, own + 1, own + PAIR_BYTES, 8_192, 65_535, 65_536, 70_000] {
            let page = page_of(list, length);
            ask_each(&page, b"", false, ask);
            let behind = own..own + PAIR_BYTES + 2;
            let others = [own - MAX_NAMES, own - 1, (own + length) / 2, length - 1];
            for place in behind.chain(others).filter(|&place| place < length) {
                let byte = page[place] ^ (random.byte() | 1);
                ask_each(&changed(&page, place, byte), b"", false, ask);
            }
        }
    }
}

fn changed(bytes: &[u8], place: usize, byte: u8) -> Vec<u8> {
    let mut bytes = bytes.to_vec();
    bytes[place] = byte;
    bytes
}

/// Tables of none to three names and of all 256, in form and broken, lent and not,
/// beside tables that have symbols among them and not.
fn names_beside(ask: Sink) {
    let words = ["mm", "in", "s"];
    let mut names: Vec<Vec<u8>> =
        (0..=words.len()).map(|count| table_on(&words[..count], 12)).collect();
    names.push(table(&shortest_names(MAX_NAMES - 1)));
    names.push(table(&shortest_names(MAX_NAMES)));
    names.push(table(&shortest_names(MAX_NAMES + 1)));
    names.push(table_on(&["mm", "mm", "s"], 0));
    names.push(table_on(&["mm", "2", "s"], 0));
    names.push(changed(&table_on(&words, 12), 11, 1));
    names.push(table_on(&words, 0)[..7].to_vec());
    names.push(vec![0]);
    names.push(Vec::new());

    let lists: [&[Symbols]; 8] = [
        &[],
        &[(0, 0)],
        &[(1, 0)],
        &[(0, 1)],
        &[(2, 0)],
        &[(0, 2)],
        &[(1, 0), (255, 1)],
        &[(0, 255)],
    ];
    for list in lists {
        let list = pairs(list);
        let broken = with_parents_of(&list, &pairs(&[(4, 5), (6, 7)]));
        for page in [page_of(&list, 0), page_of(&list, 290), broken] {
            for names in &names {
                ask_all(&page, names, true, ask);
                ask_each(&page, names, false, ask);
            }
        }
    }
}

/// Units of any length with symbols in use and not, on either side; a few of them with each
/// other, also where the pairs have a symbol that is not in use.
fn unused_symbols(ask: Sink) {
    let page = page_of(&pairs(&[(1, 0)]), 0);
    let broken = page_of(&pairs(&[(1, 0), (1, 254)]), 0);
    let few = few_units();
    for (names, lent) in &lendings() {
        for unit in &units() {
            ask(Question::canonicalize(&page, names, *lent, unit));
            ask(Question::is_convertible_to(&page, names, *lent, unit, &[0]));
            ask(Question::is_convertible_to(&page, names, *lent, &NO_UNIT, unit));
        }
        for page in [&page, &broken] {
            for left in &few {
                ask(Question::canonicalize(page, names, *lent, left));
                for right in &few {
                    ask(Question::is_convertible_to(page, names, *lent, left, right));
                }
            }
        }
    }
}

/// Numbers too large for a symbol, of tables that have what their low bytes say, with room
/// for one more pair and without, and of tables that are not in form.
fn wide_symbols(ask: Sink) {
    let [a, b, c, d] = LOW;
    let lists = [pairs(&[]), pairs(&[(b, a)]), pairs(&[(b, a), (c, b), (d, c)])];
    let mut lendings = lendings().to_vec();
    lendings.extend([(table_on(&["m", "m"], 0), true), (Vec::new(), false)]);
    for list in &lists {
        let own = table_bytes(list.len());
        let broken = with_parents_of(list, &pairs(&[(4, 5), (6, 7)]));
        for page in [page_of(list, own + PAIR_BYTES), page_of(list, own), broken] {
            for (names, lent) in &lendings {
                for symbol in WIDE {
                    ask_wide(&page, names, *lent, symbol, ask);
                }
            }
        }
    }
    let page = page_of(&lists[2], table_bytes(lists[2].len() + 1));
    wide().for_each(|symbol| ask_wide(&page, b"", false, symbol, ask));
    let full = page_of(&vec![pair(b, a); MAX_PAIRS], 0);
    WIDE.into_iter().for_each(|symbol| ask_wide(&full, b"", false, symbol, ask));
}

fn ask_wide(page: &[u8], names: &[u8], lent: bool, symbol: u16, ask: Sink) {
    ask(Question::canonical(page, names, lent, symbol));
    ask(Question::factor(page, names, lent, symbol));
    for both in [[symbol, 0], [0, symbol], [symbol, symbol], [symbol, 255], [255, symbol]] {
        ask(Question::insert_symbols(page, names, lent, both, 7));
    }
}
