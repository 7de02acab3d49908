//! The chosen rows of operators and indexes: pages, numbers, units and refusals; those of
//! the rules are in `operators` and `indexes`.
//!
//! A pair table takes much room, and every row of a binary operator has one: where another
//! call will do, a row is of that call.

mod indexes;
mod operators;

use super::units::{units_cut, units_out_of_form};
use crate::call::{Operand, Pages, Question};
use crate::inputs::answers::operands::{operand, EQUAL, IN, MINUS, MM, PLUS, S};
use crate::inputs::names::table_on;
use crate::inputs::pairs::{page_of, pair, pairs, turned, with_parents_of};
use crate::inputs::types::shapes::{array, named, over, stored, ANY, ARRAY, CALLBACK, HANDLE, INT};
use crate::limits::{EMPTY_PAIRS_BYTES, FUNCTION, NO_UNIT, UNKNOWN};
use crate::units::unit_bytes;

pub fn chosen() -> Vec<Question> {
    [
        codes(),
        broken_stores(),
        broken_pairs(),
        names_beside(),
        numbers(),
        broken_units(),
        refusals_at_once(),
        operators::chosen(),
        indexes::chosen(),
    ]
    .concat()
}

/// A store without types beyond the fixed ones.
const FIXED_ALONE: &[u8] = &[0, 0];

/// Pages without names; `pairs` is for binary operators alone.
fn pages<'a>(store: &'a [u8], pairs: &'a [u8]) -> Pages<'a> {
    Pages { store, names: b"", lent: false, pairs }
}

/// One row of each call about an operand, where the pair table is not looked at.
fn each_without_pairs(pages: Pages, given: Operand) -> [Question; 2] {
    [
        Question::check_unary_operator(pages, MINUS, given),
        Question::check_index(pages, given, INT.into()),
    ]
}

/// Codes that are no operator's, which come before any other fault.
fn codes() -> Vec<Question> {
    let pairs = page_of(&[], 0);
    let int = operand(INT, &[0]);
    let mut questions = Vec::new();
    for op in [0, 14, 256 + PLUS] {
        let pages = pages(FIXED_ALONE, &pairs);
        questions.push(Question::check_binary_operator(pages, op, int, int));
    }
    for op in [0, 14, 255, 256 + MINUS, 65_536 + MINUS, u32::MAX] {
        questions.push(Question::check_unary_operator(pages(FIXED_ALONE, b""), op, int));
    }
    let broken = operand(99_u32, &[9]);
    questions.push(Question::check_unary_operator(pages(&[1], b""), 14, broken));
    questions
}

fn broken_stores() -> Vec<Question> {
    let stores: [&[u8]; 7] = [
        b"",
        b"\x00",
        b"\x00\x01",
        b"\x00\x00\x01",                     // not zero after the last
        b"\x00\x01\x01\x1D\x00\x13",         // its own child
        b"\x00\x02\x00\x1D\x00\x1D",         // equal entries
        b"\x00\x01\x02\x13\x00\x00\x00\x00", // an array of two
    ];
    let pairs = page_of(&[], 0);
    let int = operand(INT, &NO_UNIT);
    let mut questions = Vec::new();
    for (place, store) in stores.into_iter().enumerate() {
        questions.extend(each_without_pairs(pages(store, b""), int));
        if place % 3 == 2 {
            let pages = pages(store, &pairs);
            questions.push(Question::check_binary_operator(pages, EQUAL, int, int));
        }
    }
    questions
}

/// Pair tables in form and broken: under a sum of in and mm, which are joined or not.
fn broken_pairs() -> Vec<Question> {
    let chain = pairs(&[(IN, MM), (S, IN)]);
    let changed = |place: usize, byte: u8| {
        let mut page = page_of(&chain, 0);
        page[place] = byte;
        page
    };
    let whole = page_of(&chain, 0);
    let tables = [
        Vec::new(),
        vec![0; EMPTY_PAIRS_BYTES],
        whole[..whole.len() - 1].to_vec(),
        [&whole[..], &[0]].concat(),
        [&whole[..], &[1]].concat(),
        changed(1, 1),
        changed(2, S),
        changed(22, S), // a walk made shorter
        with_parents_of(&chain, &turned(&chain)),
        page_of(&[pair(S, IN)], 0),
    ];
    let (mm, inch) = (unit_bytes(&[(MM, 1)]), unit_bytes(&[(IN, 1)]));
    let ask = |pairs: &Vec<u8>| {
        let (left, right) = (operand(INT, &inch), operand(INT, &mm));
        Question::check_binary_operator(pages(FIXED_ALONE, pairs), PLUS, left, right)
    };
    tables.iter().map(ask).collect()
}

/// Names lent and not, in form and broken; names of a store, of a pair and of a unit that
/// are in use and not.
fn names_beside() -> Vec<Question> {
    let (two, one) = (table_on(&["a", "b"], 0), table_on(&["a"], 0));
    let (none, broken) = (table_on(&[], 0), table_on(&["a", "a"], 0));
    let (store, [array]) = stored([&array(named(HANDLE, 0))], 0);
    let inch = unit_bytes(&[(IN, 1)]);
    let table = page_of(&pairs(&[(IN, MM)]), 0);
    let mut questions = Vec::new();
    for names in [&two, &one, &none, &broken] {
        for lent in [true, false] {
            let pages = Pages { store: &store, names, lent, pairs: b"" };
            let [unary, _] = each_without_pairs(pages, operand(INT, &inch));
            let [_, index] = each_without_pairs(pages, operand(array, &NO_UNIT));
            questions.extend([unary, index]);
        }
        let pages = Pages { store: FIXED_ALONE, names, lent: true, pairs: &table };
        let (left, right) = (operand(INT, &[0]), operand(INT, &NO_UNIT));
        questions.push(Question::check_binary_operator(pages, PLUS, left, right));
    }
    // Not a name of the pairs, but of the units.
    let pairs = page_of(&[], 0);
    let pages = Pages { store: FIXED_ALONE, names: &one, lent: true, pairs: &pairs };
    for (left, right) in [(&inch[..], &[0][..]), (&[0], &inch), (&[1, MM, 0, 1], &[1, MM, 0, 1])] {
        let (left, right) = (operand(INT, left), operand(INT, right));
        questions.push(Question::check_binary_operator(pages, PLUS, left, right));
    }
    questions
}

/// Numbers in use and not, in every place, and Functions that are none.
fn numbers() -> Vec<Question> {
    let (store, [callback, last]) = stored([&over(CALLBACK, &[INT]), &over(ARRAY, &[INT])], 0);
    let (callback, last) = (u32::from(callback), u32::from(last));
    let pairs = page_of(&[], 0);
    let mut questions = Vec::new();
    let given = [
        last,
        last + 1,
        65_535,
        FUNCTION + callback,
        FUNCTION + last,
        FUNCTION + last + 1,
        UNKNOWN,
    ];
    for number in given {
        let pages = pages(&store, b"");
        questions.extend(each_without_pairs(pages, operand(number, &[0])));
        questions.push(Question::check_index(pages, operand(last, &[0]), number));
    }
    let pages = pages(&store, &pairs);
    for number in [last + 1, FUNCTION + last, u32::MAX] {
        let (int, number) = (operand(INT, &[0]), operand(number, &[0]));
        questions.push(Question::check_binary_operator(pages, PLUS, number, int));
        questions.push(Question::check_binary_operator(pages, PLUS, int, number));
    }
    questions
}

/// Each way to break a unit's form, by one call, taken in turn.
fn broken_units() -> Vec<Question> {
    let pairs = page_of(&[], 0);
    let mut questions = Vec::new();
    for (place, unit) in units_out_of_form().iter().enumerate() {
        let given = operand(INT, unit);
        questions.push(each_without_pairs(pages(FIXED_ALONE, b""), given)[place % 2].clone());
        let (left, right) = match place % 16 {
            0 => (given, operand(INT, &[0])),
            8 => (operand(INT, &[0]), given),
            _ => continue,
        };
        let pages = pages(FIXED_ALONE, &pairs);
        questions.push(Question::check_binary_operator(pages, PLUS, left, right));
    }
    questions
}

/// The lowest number first, wherever each fault stands.
fn refusals_at_once() -> Vec<Question> {
    let names = table_on(&["a"], 0);
    let (store, [union]) = stored([&over(ANY, &[INT])], 0);
    let pairs = page_of(&[], 0);
    let (unused, broken) = (operand(union + 1, &[0]), operand(union, &[9]));
    let symbol = operand(union, &[1, 7, 0, 0]);
    let good = operand(union, &[1, MM, 0, 1]);
    let binary = [(14, unused, broken), (PLUS, broken, unused), (PLUS, broken, symbol)];
    let mut questions = Vec::new();
    for (op, left, right) in binary {
        for pairs in [&pairs[..], b"\x00"] {
            let pages = Pages { store: &store, names: &names, lent: true, pairs };
            questions.push(Question::check_binary_operator(pages, op, left, right));
        }
    }
    let pages = Pages { store: &store, names: &names, lent: true, pairs: b"" };
    for given in [unused, broken, symbol, operand(union + 1, &[9])] {
        questions.extend(each_without_pairs(pages, given));
        questions.push(Question::check_index(pages, given, 99));
    }
    questions.push(Question::check_index(pages, good, 99));
    questions.extend(units_cut_short());
    questions
}

/// A symbol not in use comes before a wrong length or count.
fn units_cut_short() -> Vec<Question> {
    let names = table_on(&["a", "b"], 0);
    let beside = Pages { store: FIXED_ALONE, names: &names, lent: true, pairs: b"" };
    let mut questions = Vec::new();
    for (place, unit) in units_cut().iter().enumerate() {
        questions.push(each_without_pairs(beside, operand(INT, unit))[place % 2].clone());
    }
    let (cut, broken) = (operand(INT, &[9, 0, 0, 1, 2]), operand(INT, &[9]));
    questions.push(Question::check_unary_operator(beside, 14, cut));
    questions.push(Question::check_unary_operator(pages(FIXED_ALONE, b""), MINUS, cut));
    let pairs = page_of(&[], 0);
    let beside = Pages { pairs: &pairs, ..beside };
    for (left, right) in [(cut, broken), (broken, cut)] {
        questions.push(Question::check_binary_operator(beside, PLUS, left, right));
    }
    questions
}
