//! The chosen rows of units.

use crate::call::Question;
use crate::inputs::names::{shortest_names, table, table_on};
use crate::limits::{MAX_NAMES, MAX_SYMBOLS, NO_UNIT};
use crate::units::{unit_bytes, Term};

pub fn chosen() -> Vec<Question> {
    [forms(), products(), product_refusals(), exponents(), texts(), text_refusals()].concat()
}

/// So many symbols from `first` on, all with one exponent.
pub fn several(first: u8, count: usize, exponent: i16) -> Vec<Term> {
    (first..=255).take(count).map(|symbol| (symbol, exponent)).collect()
}

fn units_in_form() -> Vec<Vec<u8>> {
    let terms: [&[Term]; 12] = [
        &[],
        &[(0, 1)],
        &[(0, -1)],
        &[(255, 2)],
        &[(3, 1000)],
        &[(3, -1000)],
        &[(0, 256), (1, -256)],
        &[(0, 1), (255, -1)],
        &[(1, 2), (2, -3), (9, 1)],
        &[(10, 999), (20, -999), (30, 1), (40, -1)],
        &several(0, MAX_SYMBOLS, 1),
        &several(248, MAX_SYMBOLS, -1000),
    ];
    terms.map(unit_bytes).to_vec()
}

/// Each way to break a unit's form.
pub fn units_out_of_form() -> Vec<Vec<u8>> {
    let terms: [&[Term]; 13] = [
        &[(0, 0)],
        &[(0, 1001)],
        &[(0, -1001)],
        &[(0, i16::MAX)],
        &[(0, i16::MIN)],
        &[(1, 1), (1, 1)],
        &[(1, 1), (1, -1)],
        &[(2, 1), (1, 1)],
        &[(0, 1), (1, 0)],
        &[(0, 1), (1, 1), (2, 1001)],
        &[(0, 1), (2, 1), (1, 1), (3, 1)],
        &several(0, MAX_SYMBOLS + 1, 1),
        &[(1, 1), (2, 1), (3, 1), (4, 1), (5, 1), (6, 1), (7, 1), (7, 1)],
    ];
    let mut units = terms.map(unit_bytes).to_vec();
    let lengths_and_counts: [&[u8]; 16] = [
        &[],
        &[1],
        &[1, 0],
        &[1, 0, 0],
        &[1, 0, 0, 1, 0],
        &[0, 0],
        &[0, 0, 0, 1],
        &[2, 0, 0, 1],
        &[2, 0, 0, 1, 1, 0],
        &[1, 0, 0, 1, 1, 0, 1],
        &[9],
        &[9, 0, 0, 1],
        &[254],
        &[255],
        &[255, 0],
        &[255, 0, 0, 1],
    ];
    units.extend(lengths_and_counts.map(|unit| unit.to_vec()));
    units
}

/// Form and unitlessness of all the units above.
fn forms() -> Vec<Question> {
    let units = [units_in_form(), units_out_of_form()].concat();
    units
        .iter()
        .flat_map(|unit| [Question::unit_form(unit), Question::is_dimensionless(unit)])
        .collect()
}

fn both_operators(left: &[Term], right: &[Term]) -> [Question; 2] {
    let (left, right) = (unit_bytes(left), unit_bytes(right));
    [Question::product(&left, &right, false), Question::product(&left, &right, true)]
}

/// Each rule of product and quotient.
fn products() -> Vec<Question> {
    let pairs: [(&[Term], &[Term]); 25] = [
        (&[], &[]),
        (&[(0, 1)], &[]),                // only left
        (&[], &[(0, 1)]),                // only right
        (&[(0, 1)], &[(1, 1)]),          // left, then right
        (&[(1, 1)], &[(0, 1)]),          // right, then left
        (&[(0, 2)], &[(0, 3)]),          // both
        (&[(0, 1)], &[(0, 1)]),          // a quotient that vanishes
        (&[(0, 1)], &[(0, -1)]),         // a product that vanishes
        (&[(0, 1), (1, -1)], &[(1, 1)]), // m/s times s
        (&[(0, 1), (1, -1)], &[(1, -1)]),
        (&[(0, 1), (2, 1)], &[(1, 1)]), // in between
        (&[(1, 1)], &[(0, 1), (2, 1)]),
        (&[(0, 1), (2, 1), (4, 1)], &[(1, 1), (3, 1), (5, 1)]),
        (&[(0, 1), (1, 2), (2, 3)], &[(0, -1), (1, -2), (2, -3)]),
        (&[(0, 1), (1, 2), (2, 3)], &[(0, 1), (1, 2), (2, 3)]),
        (&[(0, 1), (1, 2), (2, 3)], &[(1, -2)]), // the middle vanishes
        (&[(0, 1), (1, 2), (2, 3)], &[(1, 2)]),
        (&[(0, 1), (255, 1)], &[(0, -1), (255, 1)]),
        (&[(0, 600)], &[(0, 400)]), // just the limit
        (&[(0, -600)], &[(0, 400)]),
        (&[(0, 1000)], &[(0, 1000)]), // 0 or far outside
        (&[(0, 1000)], &[(0, -1000)]),
        (&[(0, -1000)], &[(0, 1000)]),
        (&[(0, 255)], &[(0, 1)]), // from one exponent byte to two
        (&[(0, -1)], &[(0, 1)]),
    ];
    let mut questions: Vec<Question> =
        pairs.into_iter().flat_map(|(left, right)| both_operators(left, right)).collect();

    // Many symbols: seven and eight in the result, and eight that vanish.
    let eight = several(0, MAX_SYMBOLS, 1);
    questions.extend(both_operators(&several(0, 4, 1), &several(4, 4, 1)));
    questions.extend(both_operators(&several(4, 4, 1), &several(0, 3, -2)));
    questions.extend(both_operators(&eight, &[]));
    questions.extend(both_operators(&[], &eight));
    questions.extend(both_operators(&eight, &eight));
    questions.extend(both_operators(&eight, &several(0, MAX_SYMBOLS, -1)));
    questions.extend(both_operators(&several(0, MAX_SYMBOLS, 500), &several(0, MAX_SYMBOLS, -500)));
    // The ninth symbol comes as another goes, before it or after it.
    questions.extend(both_operators(&eight, &[(7, 1), (8, 1)]));
    questions.extend(both_operators(&eight, &[(0, -1), (8, 1)]));
    questions.extend(both_operators(&several(1, MAX_SYMBOLS, 1), &[(0, 1), (8, -1)]));
    questions.extend(both_operators(&several(1, MAX_SYMBOLS, 1), &[(0, 1), (8, 1)]));
    questions
}

/// 5 on either side and on both, 8 in both directions, 9, and 8 before 9.
fn product_refusals() -> Vec<Question> {
    let good = unit_bytes(&[(0, 1)]);
    let mut questions = Vec::new();
    for (place, bad) in units_out_of_form().iter().enumerate() {
        questions.push(Question::product(bad, &good, place % 2 == 0));
        questions.push(Question::product(&good, bad, place % 2 == 1));
    }
    questions.push(Question::product(&[9], &[9], false));
    questions.push(Question::product(&NO_UNIT, &NO_UNIT, true));

    for (left, right) in [
        (1000, 1),
        (1000, -1),
        (-1000, 1),
        (-1000, -1),
        (1, 1000),
        (-1, 1000),
        (1, -1000),
        (-1, -1000),
        (501, 500),
        (-501, 500),
        (999, 2),
        (-999, 2),
    ] {
        questions.extend(both_operators(&[(0, left)], &[(0, right)]));
    }
    // The exponent outside stands last, or in the middle.
    questions.extend(both_operators(&[(0, 1), (1, 1), (2, 1000)], &[(2, 1)]));
    questions.extend(both_operators(&[(0, 1), (1, -1000), (2, 1)], &[(1, -1)]));
    questions.extend(both_operators(&[(0, 1000), (1, -1000)], &[(0, 1), (1, 1)]));

    let eight = several(0, MAX_SYMBOLS, 1);
    questions.extend(both_operators(&eight, &[(8, 1)]));
    questions.extend(both_operators(&[(8, 1)], &eight));
    questions.extend(both_operators(&several(1, MAX_SYMBOLS, 1), &[(0, 1)]));
    questions.extend(both_operators(&several(0, 5, 2), &several(4, 5, 1)));
    questions.extend(both_operators(&eight, &several(8, MAX_SYMBOLS, 1)));
    // Nine symbols, and one outside the limit before or after the ninth.
    questions.extend(both_operators(&several(0, MAX_SYMBOLS, 1000), &[(0, 1), (8, 1)]));
    questions.extend(both_operators(&several(1, MAX_SYMBOLS, -1000), &[(0, 1), (8, 1)]));
    questions
}

fn exponents() -> Vec<Question> {
    let mut questions = Vec::new();
    for unit in units_in_form() {
        for symbol in [0, 3, 255] {
            questions.push(Question::exponent(&unit, symbol));
        }
    }
    let terms: [Term; 5] = [(1, 2), (4, -3), (5, 1000), (9, -1000), (200, -1)];
    for symbol in [0, 1, 2, 4, 5, 6, 9, 199, 200, 201] {
        questions.push(Question::exponent(&unit_bytes(&terms), symbol));
    }
    questions.extend(units_out_of_form().iter().map(|unit| Question::exponent(unit, 0)));
    questions
}

/// Each rule of a unit's text.
fn texts() -> Vec<Question> {
    // By name: M, _, in, m, m1, mm, s; a capital and the underscore come before small letters.
    let names = table_on(&["s", "mm", "m", "_", "M", "in", "m1"], 24);
    let units: [&[Term]; 16] = [
        &[],                                 // 1
        &[(2, 1)],                           // m
        &[(2, -1)],                          // 1/m
        &[(2, 2)],                           // m^2
        &[(2, -2)],                          // 1/m^2
        &[(2, 10)],                          // two digits
        &[(1, 999)],                         // three
        &[(1, -1000)],                       // four
        &[(0, -1), (2, 1)],                  // m/s
        &[(0, 1), (2, 1)],                   // by name, not by number
        &[(1, 1), (2, 1)],                   // a prefix comes first
        &[(1, -1), (2, -1), (6, -1)],        // several below
        &[(0, -2), (1, 1), (2, 3), (5, -1)], // several above and below
        &[(2, 1), (3, 1), (4, 1)],           // M*_*m
        &[(0, 1), (1, -1), (2, 1), (3, -1), (4, 1), (5, -1), (6, 1)],
        &[(0, 100), (6, -1)],
    ];
    let mut questions: Vec<Question> =
        units.iter().map(|unit| Question::unit_text(&names, &unit_bytes(unit))).collect();

    // The longest text of all, with the names in reverse, and one as long above the line.
    let longest: Vec<String> =
        (0..MAX_SYMBOLS).map(|number| format!("n{:0>30}", 9 - number)).collect();
    let longest = table_on(&longest.iter().map(String::as_str).collect::<Vec<_>>(), 0);
    questions.push(Question::unit_text(&longest, &unit_bytes(&several(0, MAX_SYMBOLS, -1000))));
    questions.push(Question::unit_text(&longest, &unit_bytes(&several(0, MAX_SYMBOLS, 1000))));

    let full = table(&shortest_names(MAX_NAMES));
    questions.push(Question::unit_text(&full, &unit_bytes(&[(0, 1), (254, -1), (255, 2)])));
    questions.push(Question::unit_text(&[0, 0], &[0]));
    questions
}

/// A page out of form (2), a symbol not in use (3), a unit out of form (5), and their order.
fn text_refusals() -> Vec<Question> {
    let names = table_on(&["m", "s"], 8);
    let broken = table_on(&["m", "m"], 8);
    let mut questions = vec![
        Question::unit_text(&broken, &unit_bytes(&[(0, 1)])),
        Question::unit_text(&broken, &unit_bytes(&[(9, 1)])),
        Question::unit_text(&broken, &[9]),
        Question::unit_text(&names[..5], &unit_bytes(&[(0, 1)])),
        Question::unit_text(&names, &unit_bytes(&[(2, 1)])),
        Question::unit_text(&names, &unit_bytes(&[(0, 1), (255, 1)])),
        Question::unit_text(&[0; 4], &unit_bytes(&[(0, 1)])),
        // Not in use comes before another fault of the terms, wherever each stands.
        Question::unit_text(&names, &unit_bytes(&[(0, 0), (2, 1)])),
        Question::unit_text(&names, &unit_bytes(&[(2, 1), (0, 1)])),
        Question::unit_text(&names, &unit_bytes(&[(2, 0)])),
        // And before a wrong length or count.
        Question::unit_text(&names, &[1, 2, 0]),
        Question::unit_text(&names, &[1, 2, 0, 1, 0]),
        Question::unit_text(&names, &[9, 2, 0, 1]),
        Question::unit_text(&names, &NO_UNIT),
        Question::unit_text(&names, &[]),
        Question::unit_text(&names, &unit_bytes(&[(0, 0)])),
        Question::unit_text(&names, &unit_bytes(&[(1, 1), (0, 1)])),
        Question::unit_text(&names, &unit_bytes(&[(0, 1), (0, 1)])),
        Question::unit_text(&names, &unit_bytes(&[(0, 1001)])),
    ];
    questions.extend(units_cut().iter().map(|unit| Question::unit_text(&names, unit)));
    // Nine symbols: all in use, the ninth not, and that with half its exponent and with none.
    let eight = table(&shortest_names(MAX_SYMBOLS));
    let nine = unit_bytes(&several(0, MAX_SYMBOLS + 1, 1));
    questions.push(Question::unit_text(&table(&shortest_names(MAX_SYMBOLS + 1)), &nine));
    for cut in 0..3 {
        questions.push(Question::unit_text(&eight, &nine[..nine.len() - cut]));
    }
    questions
}

/// Bytes of a wrong length or count, where two names are in use: a symbol not in use among
/// those that are there, or only among bytes that are none.
pub fn units_cut() -> Vec<Vec<u8>> {
    let units: [&[u8]; 11] = [
        &[1, 2],
        &[2, 0, 0, 1, 2],
        &[2, 0, 0, 1, 1, 0],
        &[1, 1, 2],
        &[1, 1, 0, 1, 2],
        &[0, 2],
        &[9, 1, 0, 1],
        &[10, 0, 0, 1, 2, 0],
        &[254, 0, 0, 1, 0, 0, 1, 255],
        &[254, 0, 2, 2, 1, 2, 2],
        &[255, 2, 0, 1],
    ];
    units.map(<[u8]>::to_vec).to_vec()
}
