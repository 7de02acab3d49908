//! The chosen rows of group sums and convertibility.

use super::NO_NAMES;
use crate::call::Question;
use crate::inputs::pairs::{page_of, pair, pairs};
use crate::limits::{MAX_SYMBOLS, NO_UNIT};
use crate::sample::units::{several, units_out_of_form};
use crate::units::{unit_bytes, Term};

pub fn chosen() -> Vec<Question> {
    [group_sums(), extreme_sums(), conversions(), conversions_of_none(), units_refused()].concat()
}

/// Three groups: 0, 1 and 9 with root 9; 2 and 8 with root 2; 3 to 7 with root 5.
fn three_groups() -> Vec<u8> {
    page_of(&pairs(&[(9, 0), (9, 1), (2, 8), (4, 3), (5, 4), (5, 6), (6, 7)]), 0)
}

/// One group of nine symbols, with root 0.
fn nine_joined() -> Vec<u8> {
    page_of(&(1..=8).map(|base| pair(0, base)).collect::<Vec<_>>(), 0)
}

fn canonicalize(page: &[u8], unit: &[Term]) -> Question {
    Question::canonicalize(page, NO_NAMES, false, &unit_bytes(unit))
}

fn is_convertible_to(page: &[u8], left: &[u8], right: &[u8]) -> Question {
    Question::is_convertible_to(page, NO_NAMES, false, left, right)
}

/// Each rule of a unit's group sums.
fn group_sums() -> Vec<Question> {
    let units: [&[Term]; 18] = [
        &[],
        &[(9, 1)],                                     // a root
        &[(0, 1)],                                     // below it
        &[(10, -1)],                                   // in no pair
        &[(255, 1000)],                                // the last symbol
        &[(0, 1), (1, -1)],                            // nothing left
        &[(0, 1), (1, 1)],                             // a sum
        &[(0, 1), (1, 1), (9, -2)],                    // three that vanish
        &[(0, 1), (1, 1), (9, -3)],                    // below zero
        &[(0, 1), (8, 1)],                             // ascending by root, not by symbol
        &[(0, 1), (2, 1), (3, 1)],                     // three groups
        &[(1, 5), (3, 1), (7, -1), (8, -2)],           // the group between vanishes
        &[(3, 1000), (4, 1000), (6, 1000), (7, 1000)], // past an exponent's limit
        &[(3, -1000), (4, -1000), (6, -1000), (7, -999)],
        &[(0, 256), (3, -256), (8, 255)],
        &[(0, 1), (1, 1), (2, 1), (3, 1), (4, 1), (5, 1), (6, 1), (7, 1)],
        &[(0, 1), (2, 2), (3, 3), (10, 4), (11, 5), (12, 6), (13, 7), (14, 8)], // eight groups
        &[(0, 1), (1, -1), (2, 1), (8, -1), (3, 1), (4, -1)], // out of order, so no unit
    ];
    let page = three_groups();
    units.iter().map(|unit| canonicalize(&page, unit)).collect()
}

/// Sums as large as they can be and one less, those that vanish, and the same units
/// without pairs.
fn extreme_sums() -> Vec<Question> {
    let (nine, none) = (nine_joined(), page_of(&[], 0));
    let mut questions = Vec::new();
    for exponent in [1000, -1000, 999] {
        questions.push(canonicalize(&nine, &several(0, MAX_SYMBOLS, exponent)));
        questions.push(canonicalize(&nine, &several(1, MAX_SYMBOLS, exponent)));
    }
    let mut vanishing = several(1, MAX_SYMBOLS, 1000);
    vanishing.iter_mut().step_by(2).for_each(|(_, exponent)| *exponent = -1000);
    questions.push(canonicalize(&nine, &vanishing));
    questions.push(canonicalize(&none, &several(248, MAX_SYMBOLS, -1000)));

    let (low, high) = (several(0, MAX_SYMBOLS, 1000), several(1, MAX_SYMBOLS, 1000));
    let mut less = high.clone();
    less[7].1 = 999;
    let low = unit_bytes(&low);
    for other in [&high, &less, &several(1, MAX_SYMBOLS, -1000), &vanishing] {
        questions.push(is_convertible_to(&nine, &low, &unit_bytes(other)));
    }
    questions.push(is_convertible_to(&none, &low, &unit_bytes(&high)));
    questions
}

/// Units whose sums agree and do not.
fn conversions() -> Vec<Question> {
    let units: [(&[Term], &[Term]); 25] = [
        (&[], &[]),
        (&[(9, 1)], &[(0, 1)]), // in and mm
        (&[(0, 1)], &[(9, 1)]),
        (&[(9, 1)], &[(0, 2)]), // in and mm²
        (&[(0, 2)], &[(9, 1)]),
        (&[(9, 1)], &[(9, 1)]), // equal
        (&[(9, 1)], &[(9, -1)]),
        (&[(10, 1)], &[(10, 1)]), // in no pair
        (&[(10, 1)], &[(11, 1)]),
        (&[(0, 1)], &[(2, 1)]),    // two groups
        (&[(0, 1), (1, -1)], &[]), // kg/g
        (&[], &[(0, 1), (1, -1)]),
        (&[(0, 1), (1, -2)], &[]),
        (&[(0, 1), (1, 1)], &[(0, 2)]), // kg*g and kg²
        (&[(0, 2)], &[(0, 1), (1, 1)]),
        (&[(0, 1), (1, 1)], &[(1, 1), (9, 1)]),
        (&[(0, 1), (1, 1)], &[(0, 1)]),           // one symbol too few
        (&[(0, 1), (2, -2)], &[(1, 1), (8, -2)]), // kg/m² and g/m²
        (&[(0, 1), (2, -2)], &[(1, 1)]),          // and g
        (&[(0, 1), (2, -2)], &[(1, -2), (8, 1)]), // the groups exchanged
        (&[(0, 3), (3, 1), (7, -1)], &[(1, 1), (9, 2)]), // a group vanishes on one side
        (&[(0, 1000), (1, 1000)], &[(9, 1000)]),
        (&[(0, 1000), (1, 1000)], &[(0, 999), (1, 1), (9, 1000)]),
        (&[(3, 1000), (4, 1000)], &[(5, 1000), (6, 999)]),
        (&[(0, 255)], &[(1, -1)]), // alike in one byte
    ];
    let page = three_groups();
    let ask = |(left, right): (&[Term], &[Term])| {
        is_convertible_to(&page, &unit_bytes(left), &unit_bytes(right))
    };
    units.into_iter().map(ask).collect()
}

/// No unit counts as empty.
fn conversions_of_none() -> Vec<Question> {
    let page = three_groups();
    let cancelling = unit_bytes(&[(0, 1), (1, -1)]);
    let mut questions = Vec::new();
    for other in [&NO_UNIT[..], &[0], &cancelling, &[1, 0, 0, 1]] {
        questions.push(is_convertible_to(&page, &NO_UNIT, other));
        questions.push(is_convertible_to(&page, other, &NO_UNIT));
    }
    questions
}

/// Units out of form, on either side and on both.
fn units_refused() -> Vec<Question> {
    let page = page_of(&[], 0);
    let good = unit_bytes(&[(0, 1)]);
    let mut questions = Vec::new();
    for (place, bad) in units_out_of_form().iter().enumerate() {
        questions.push(Question::canonicalize(&page, NO_NAMES, false, bad));
        let (left, right) = if place % 2 == 0 { (bad, &good) } else { (&good, bad) };
        questions.push(is_convertible_to(&page, left, right));
    }
    questions.push(is_convertible_to(&page, &[9], &[9]));
    questions.push(is_convertible_to(&page, &NO_UNIT, &[9]));
    questions.push(is_convertible_to(&page, &[0, 0], &NO_UNIT));
    questions
}
