//! The chosen rows of pair tables; those of units beside them are in `groups`.

mod groups;

use super::units::{several, units_cut};
use crate::call::Question;
use crate::inputs::names::{shortest_names, table, table_on};
use crate::inputs::pairs::{page_of, pair, pairs, reversed, turned, with_parents_of, Symbols};
use crate::limits::{EMPTY_PAIRS_BYTES, MAX_NAMES, MAX_PAIRS, MAX_SYMBOLS, NO_UNIT, PAIR_BYTES};
use crate::pairs::{table_bytes, Pair};
use crate::units::{unit_bytes, Term};

pub fn chosen() -> Vec<Question> {
    [
        emptied_pages(),
        page_lengths(),
        broken_pages(),
        insertions(),
        factors_inserted(),
        room(),
        roots_and_factors(),
        names_beside(),
        numbers_not_in_use(),
        refusals_at_once(),
        deep_tables(),
        full_tables(),
        groups::chosen(),
    ]
    .concat()
}

/// A names page that is not lent.
const NO_NAMES: &[u8] = b"";

/// Each call that asks for a table in form, once.
fn each(page: &[u8], names: &[u8], lent: bool) -> [Question; 5] {
    let (left, right) = (unit_bytes(&[(0, 1)]), unit_bytes(&[(1, 1)]));
    [
        Question::insert_pair(page, names, lent, pair(1, 0)),
        Question::canonical(page, names, lent, 0),
        Question::factor(page, names, lent, 1),
        Question::canonicalize(page, names, lent, &left),
        Question::is_convertible_to(page, names, lent, &left, &right),
    ]
}

/// Any page of 258 bytes or more can be emptied, one out of form too.
fn emptied_pages() -> Vec<Question> {
    let lengths = [0, 1, 2, 257, 258, 259, 267, 268, 300];
    let mut questions: Vec<Question> =
        lengths.iter().map(|&length| Question::empty_pairs(&vec![255; length])).collect();
    questions.push(Question::empty_pairs(&[0; EMPTY_PAIRS_BYTES]));
    questions.push(Question::empty_pairs(&page_of(&[], 0)));
    questions.push(Question::empty_pairs(&page_of(&pairs(&[(1, 0), (2, 1)]), 281)));
    questions
}

/// Tables of no pair and of one, cut, just whole, and with room for one more or not.
fn page_lengths() -> Vec<Question> {
    let (none, one) = (page_of(&[], 300), page_of(&[pair(1, 0)], 300));
    let none = [0, 1, 2, 257, 258, 267, 268].map(|length| &none[..length]);
    let one = [2, 258, 267, 268, 277, 278].map(|length| &one[..length]);
    none.iter().chain(&one).flat_map(|page| each(page, NO_NAMES, false)).collect()
}

/// Each breach of a page's form. A page takes much room, so each is asked about
/// by two calls, taken in turn.
fn broken_pages() -> Vec<Question> {
    let chain = pairs(&[(1, 0), (2, 1), (3, 2)]);
    let changed = |place: usize, byte: u8| {
        let mut page = page_of(&chain, 300);
        page[place] = byte;
        page
    };
    // Where the parents of the chain begin, and what follows them.
    let first = 2 + PAIR_BYTES * chain.len();
    let behind = first + MAX_NAMES;
    let pages = [
        vec![0; EMPTY_PAIRS_BYTES],                  // zeros are no parents
        changed(0, 2),                               // 515 pairs
        changed(0, 255),                             // 65,283
        changed(1, 2),                               // one pair fewer
        changed(1, 4),                               // one more
        changed(1, 5),                               // two more, for which the page is too short
        changed(2, 3),                               // another symbol
        changed(3, 2),                               // another base
        changed(first, 2),                           // a walk made shorter
        changed(first, 0),                           // a pair that joined nothing
        changed(first + 3, 2),                       // two symbols, each the other's parent
        changed(first + 3, 0),                       // four in a circle
        changed(behind - 1, 254),                    // a parent that no pair gives
        changed(behind, 1),                          // not zero behind the parents
        changed(299, 255),                           // not zero at the end
        with_parents_of(&chain, &turned(&chain)),    // the symbol's root below the base's
        with_parents_of(&chain, &reversed(&chain)),  // the last pair first
        with_parents_of(&[], &pairs(&[(254, 255)])), // joined without a pair
    ];
    let mut questions = Vec::new();
    for (place, page) in pages.iter().enumerate() {
        let calls = each(page, NO_NAMES, false);
        questions.extend([place, place + 2].map(|place| calls[place % calls.len()].clone()));
    }
    questions
}

/// Each way in which a pair meets the groups that are there.
fn insertions() -> Vec<Question> {
    let tables: [(&[Symbols], &[Symbols]); 5] = [
        // The document's pair first: in is 1, mm is 0.
        (&[], &[(1, 0), (0, 1), (7, 7), (255, 0), (0, 255)]),
        // A repeat, the pair turned, and pairs at its root and below it.
        (&[(1, 0)], &[(1, 0), (0, 1), (2, 1), (1, 2), (0, 2), (2, 0), (0, 0), (3, 2)]),
        // Two groups, joined at their roots and below them.
        (&[(1, 0), (3, 2)], &[(1, 3), (3, 1), (0, 2), (2, 0), (1, 2), (0, 3)]),
        // A walk of two steps.
        (&[(1, 0), (2, 1)], &[(0, 3), (3, 0), (0, 2), (2, 0), (1, 0)]),
        (&[(5, 4), (6, 5), (7, 6), (9, 8), (10, 9)], &[(4, 8), (8, 4), (4, 7)]),
    ];
    let mut questions = Vec::new();
    for (list, inserted) in tables {
        let page = page_of(&pairs(list), table_bytes(list.len() + 1));
        let insert = |&pair: &Pair| Question::insert_pair(&page, NO_NAMES, false, pair);
        questions.extend(pairs(inserted).iter().map(insert));
    }
    questions
}

/// A factor has any 64 bits, and a repeated pair its own.
fn factors_inserted() -> Vec<Question> {
    let factors = [
        25.4_f64.to_bits(),
        1_f64.to_bits(),
        0,
        (-0_f64).to_bits(),
        f64::INFINITY.to_bits(),
        f64::NEG_INFINITY.to_bits(),
        0x7FF8_0000_0000_0000, // a NaN
        0x7FF0_0000_0000_0001, // one that signals
        0xFFFF_FFFF_FFFF_FFFF,
        1,
        0x0102_0304_0506_0708,
        0xF1E2_D3C4_B5A6_9788,
    ];
    let insert = |page: &[u8], factor: u64| {
        Question::insert_pair(page, NO_NAMES, false, Pair { factor, ..pair(1, 0) })
    };
    let empty = page_of(&[], table_bytes(1));
    let mut questions = factors.map(|factor| insert(&empty, factor)).to_vec();
    let one = page_of(&[pair(1, 0)], table_bytes(2));
    questions.push(insert(&one, 7));
    questions
}

/// A pair where the page has just the room, one byte less and one more.
fn room() -> Vec<Question> {
    let mut questions = Vec::new();
    for count in 0..3 {
        let list = vec![pair(1, 0); count];
        let own = table_bytes(count);
        for room in [0, PAIR_BYTES - 1, PAIR_BYTES, PAIR_BYTES + 1] {
            let page = page_of(&list, own + room);
            questions.push(Question::insert_pair(&page, NO_NAMES, false, pair(2, 1)));
        }
        // A pair that is listed already takes a place too.
        questions.push(Question::insert_pair(&page_of(&list, own), NO_NAMES, false, pair(1, 0)));
    }
    questions
}

/// Roots along a chain, in a star and in two groups, and the first factor of each symbol.
fn roots_and_factors() -> Vec<Question> {
    let lists: [&[Symbols]; 4] = [
        &[],
        &[(1, 0), (2, 1), (3, 2)],
        &[(3, 0), (3, 1), (3, 2), (3, 3), (3, 0)],
        &[(1, 0), (3, 2), (0, 2), (254, 255)],
    ];
    let mut questions = Vec::new();
    for list in lists {
        let page = page_of(&pairs(list), 0);
        for symbol in [0, 1, 2, 3, 255] {
            questions.push(Question::canonical(&page, NO_NAMES, false, symbol));
            questions.push(Question::factor(&page, NO_NAMES, false, symbol));
        }
    }
    // Repeats with factors and bases of their own, and (x, x) before another.
    let repeated = [
        Pair { factor: 1, ..pair(1, 0) },
        Pair { factor: 2, ..pair(1, 2) },
        Pair { factor: 3, ..pair(2, 2) },
        Pair { factor: u64::MAX, ..pair(2, 1) },
    ];
    for list in [repeated.to_vec(), reversed(&repeated)] {
        let page = page_of(&list, 0);
        questions.extend((0..3).map(|symbol| Question::factor(&page, NO_NAMES, false, symbol)));
    }
    questions
}

/// A table of the first names.
fn names(count: usize) -> Vec<u8> {
    table_on(&["mm", "in", "s"][..count], 12)
}

/// Names in form and broken, which matter only where they are lent, and pairs with
/// symbols among them and not.
fn names_beside() -> Vec<Question> {
    let page = page_of(&pairs(&[(1, 0)]), table_bytes(2));
    let mut questions = Vec::new();
    for names in [names(2), b"\x00\x02\x01m\x01m".to_vec(), names(1)] {
        questions.extend(each(&page, &names, true));
        questions.extend(each(&page, &names, false));
    }
    for broken in [&b""[..], b"\x00", b"\x00\x01\x012", b"\xFF\xFF", b"\x00\x00\x01"] {
        questions.push(Question::insert_pair(&page, broken, true, pair(0, 0)));
        questions.push(Question::canonical(&page, broken, true, 0));
    }
    // The base alone is not in use, then the symbol alone.
    questions.extend(each(&page_of(&pairs(&[(0, 1)]), 0), &names(1), true));
    questions.extend(each(&page_of(&pairs(&[(0, 0), (1, 0)]), 0), &names(1), true));

    // Without any name only a table without pairs is in form, and has no symbol.
    let empty = page_of(&[], table_bytes(1));
    questions.extend(each(&empty, &names(0), true));
    questions.push(Question::canonicalize(&empty, &names(0), true, &[0]));
    questions.push(Question::is_convertible_to(&empty, &names(0), true, &[0], &NO_UNIT));
    questions
}

/// Every number below the count of names is in use, and no other.
fn numbers_not_in_use() -> Vec<Question> {
    let page = page_of(&pairs(&[(1, 0)]), table_bytes(2));
    let mut questions = Vec::new();
    for (symbol, base) in [(2, 0), (0, 2), (3, 0), (0, 3), (3, 3), (255, 0), (0, 255)] {
        questions.push(Question::insert_pair(&page, &names(3), true, pair(symbol, base)));
    }
    for symbol in [0, 1, 2, 3, 4, 255] {
        questions.push(Question::canonical(&page, &names(3), true, symbol));
        questions.push(Question::factor(&page, &names(3), true, symbol));
    }
    let units: [&[Term]; 6] =
        [&[], &[(2, 1)], &[(3, 1)], &[(0, 1), (3, 1)], &[(0, 1), (1, -1)], &[(255, 1)]];
    for left in units.map(unit_bytes) {
        questions.push(Question::canonicalize(&page, &names(3), true, &left));
        for right in [&NO_UNIT[..], &[1, 3, 0, 1]] {
            questions.push(Question::is_convertible_to(&page, &names(3), true, &left, right));
        }
    }
    // With 255 names the last symbol is not in use, with 256 it is.
    let page = page_of(&pairs(&[(254, 253)]), table_bytes(2));
    for count in [MAX_NAMES - 1, MAX_NAMES, MAX_NAMES + 1] {
        let names = table(&shortest_names(count));
        questions.push(Question::insert_pair(&page, &names, true, pair(254, 255)));
        questions.push(Question::canonical(&page, &names, true, 255));
    }
    questions
}

/// The lowest number first, wherever each fault stands.
fn refusals_at_once() -> Vec<Question> {
    let (good, broken) = (table_on(&["mm", "in"], 0), table_on(&["mm", "mm"], 0));
    let full = page_of(&pairs(&[(1, 0)]), 0);
    let turned = with_parents_of(&pairs(&[(1, 0)]), &pairs(&[(0, 1)]));
    let unused = page_of(&pairs(&[(2, 0)]), 0);
    let mut questions = Vec::new();
    for (page, names) in [(&full, &good), (&full, &broken), (&turned, &good), (&unused, &good)] {
        // 2 before 3 and 10; 3 before 10; 10.
        for (symbol, base) in [(2, 0), (0, 2), (0, 1)] {
            questions.push(Question::insert_pair(page, names, true, pair(symbol, base)));
        }
        questions.push(Question::canonical(page, names, true, 2));
        questions.push(Question::factor(page, names, true, 2));
        // 2 before 3 and 5; 3 before 5; 5.
        questions.push(Question::canonicalize(page, names, true, &unit_bytes(&[(0, 0), (2, 1)])));
        questions.push(Question::canonicalize(page, names, true, &[1, 0, 0, 0]));
    }

    // Not in use comes before another fault of either unit. No unit has no symbols, whatever
    // follows it.
    let units: [&[u8]; 9] = [
        &[1, 2, 0, 1],
        &[1, 2, 0, 0],
        &[2, 2, 0, 1, 0, 0, 1],
        &[1, 0, 0, 0],
        &[1, 0, 0, 1],
        &[9, 2, 0, 1],
        &[1, 2, 0],
        &NO_UNIT,
        &[255, 2, 0, 1],
    ];
    for left in units {
        questions.push(Question::canonicalize(&full, &good, true, left));
        for right in [&[1, 2, 0, 1][..], &[1, 0, 0, 0], &[9, 2, 0, 1]] {
            questions.push(Question::is_convertible_to(&full, &good, true, left, right));
        }
    }
    for (place, unit) in units_cut().iter().enumerate() {
        questions.push(match place % 3 {
            0 => Question::is_convertible_to(&full, &good, true, unit, &NO_UNIT),
            1 => Question::canonicalize(&full, &good, true, unit),
            _ => Question::is_convertible_to(&full, &good, true, &[1, 0, 0, 0], unit),
        });
    }
    questions.push(Question::canonicalize(&full, &good, false, &[9, 2, 0, 1]));
    questions.push(Question::canonicalize(&full, &broken, true, &NO_UNIT));
    questions
}

/// A walk of 255 steps, and all symbols below one.
fn deep_tables() -> Vec<Question> {
    let chain: Vec<Pair> = (0..255).map(|symbol| pair(symbol + 1, symbol)).collect();
    let star: Vec<Pair> = (1..=255).map(|base| pair(0, base)).collect();
    let length = table_bytes(MAX_NAMES);
    let (chain, star) = (page_of(&chain, length), page_of(&star, length));
    let (low, high) = (several(0, MAX_SYMBOLS, 1000), several(248, MAX_SYMBOLS, 1000));
    let (low, high) = (unit_bytes(&low), unit_bytes(&high));
    vec![
        Question::canonical(&chain, NO_NAMES, false, 0),
        Question::canonical(&chain, NO_NAMES, false, 255),
        Question::insert_pair(&chain, NO_NAMES, false, pair(0, 255)),
        Question::canonicalize(&chain, NO_NAMES, false, &low),
        Question::is_convertible_to(&chain, NO_NAMES, false, &low, &high),
        Question::canonical(&star, NO_NAMES, false, 255),
        Question::insert_pair(&star, NO_NAMES, false, pair(255, 1)),
    ]
}

/// A handful of rows with about 512 pairs.
fn full_tables() -> Vec<Question> {
    let list: Vec<Pair> = (0..=MAX_PAIRS)
        .map(|place| pair((place * 7 % 256) as u8, (place * place % 251) as u8))
        .collect();
    let full = page_of(&list[..MAX_PAIRS], 0);
    let full_with_room = page_of(&list[..MAX_PAIRS], full.len() + PAIR_BYTES);
    let one_left = page_of(&list[..MAX_PAIRS - 1], full.len());
    let past_full = page_of(&list, 0);
    let (low, high) = (several(100, MAX_SYMBOLS, 3), several(200, MAX_SYMBOLS, 3));
    vec![
        Question::insert_pair(&one_left, NO_NAMES, false, list[MAX_PAIRS]),
        Question::insert_pair(&full_with_room, NO_NAMES, false, list[MAX_PAIRS]),
        Question::canonical(&full, NO_NAMES, false, 255),
        Question::factor(&full, NO_NAMES, false, 250),
        Question::is_convertible_to(&full, NO_NAMES, false, &unit_bytes(&low), &unit_bytes(&high)),
        Question::canonical(&past_full, NO_NAMES, false, 0),
    ]
}
