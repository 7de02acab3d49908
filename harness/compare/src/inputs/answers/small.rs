//! Every operator on all pairs of small types, every unit with every other, and every
//! small type under unary operators and as a target.

use super::operands::{besides, operand, plain, small, units, Beside, CODES};
use crate::call::{Operand, Question};
use crate::inputs::types::shapes::{
    fixed, holding, named, of, over, stored, Shape, A, ANY, B, BOOL, BYTE, CALLBACK, CANY, CBYTE,
    CFLOAT, CINT, CSTRING, CUINT, FLOAT, INT, RECORD, STRING, UINT,
};
use crate::inputs::types::with_rooms;
use crate::inputs::Sink;
use crate::limits::{FUNCTION, UNKNOWN};
use crate::random::Random;

pub fn questions(random: &mut Random, ask: Sink) {
    let drawn = &Drawn { units: units(), besides: besides() };
    let shapes = small();
    for left in &shapes {
        unary(left, drawn, ask);
        unknown(left, random, drawn, ask);
        for right in &shapes {
            binary(left, right, random, drawn, ask);
            index(left, right, random, drawn, ask);
        }
    }
    all_units(drawn, ask);
    drawn.besides.iter().for_each(|beside| indexed_with_rooms(beside, ask));
}

/// What is drawn for each question of two types.
struct Drawn {
    units: Vec<Vec<u8>>,
    besides: Vec<Beside>,
}

impl Drawn {
    /// The checked type with some unit.
    fn operand(&self, random: &mut Random, checked: u32) -> Operand<'_> {
        let unit: &Vec<u8> = random.pick(&self.units);
        operand(checked, unit)
    }
}

/// A number as Known, and as a Function where it is a Callback's.
fn known_and_function(shape: &Shape, number: u16) -> Vec<u32> {
    let number = u32::from(number);
    match shape.kind {
        CALLBACK => vec![number, FUNCTION + number],
        _ => vec![number],
    }
}

fn binary(left: &Shape, right: &Shape, random: &mut Random, drawn: &Drawn, ask: Sink) {
    let (store, [l, r]) = stored([left, right], 0);
    for &l in &known_and_function(left, l) {
        for &r in &known_and_function(right, r) {
            for op in CODES {
                let pages = random.pick(&drawn.besides).with(&store);
                let [l, r] = [l, r].map(|checked| drawn.operand(random, checked));
                ask(Question::check_binary_operator(pages, op, l, r));
            }
        }
    }
}

/// Unknown on either side, as an operand and as a target or key.
fn unknown(shape: &Shape, random: &mut Random, drawn: &Drawn, ask: Sink) {
    let (store, [number]) = stored([shape], 0);
    for &checked in &known_and_function(shape, number) {
        for unknown in [UNKNOWN, UNKNOWN + checked, u32::MAX] {
            let pages = random.pick(&drawn.besides).with(&store);
            let [known, unknown] = [checked, unknown].map(|checked| drawn.operand(random, checked));
            for op in CODES {
                ask(Question::check_binary_operator(pages, op, known, unknown));
                ask(Question::check_binary_operator(pages, op, unknown, known));
                ask(Question::check_unary_operator(pages, op, unknown));
            }
            ask(Question::check_binary_operator(pages, 1, unknown, unknown));
            ask(Question::check_index(pages, known, unknown.checked));
            ask(Question::check_index(pages, unknown, known.checked));
        }
    }
}

/// Each unary operator with each unit, and with and without room for a union.
fn unary(shape: &Shape, drawn: &Drawn, ask: Sink) {
    let (store, [number]) = stored([shape], 0);
    for &checked in &known_and_function(shape, number) {
        for op in CODES {
            for (place, unit) in drawn.units.iter().enumerate() {
                let beside = &drawn.besides[place % drawn.besides.len()];
                let operand = operand(checked, unit);
                ask(Question::check_unary_operator(beside.with(&store), op, operand));
            }
            let (beside, operand) = (&drawn.besides[0], operand(checked, &drawn.units[2]));
            let question =
                |page: &[u8]| Question::check_unary_operator(beside.with(page), op, operand);
            with_rooms(&store, question, ask);
        }
    }
}

/// The first type indexed by the second.
fn index(target: &Shape, key: &Shape, random: &mut Random, drawn: &Drawn, ask: Sink) {
    let (store, [t, k]) = stored([target, key], 0);
    for &t in &known_and_function(target, t) {
        for &k in &known_and_function(key, k) {
            let pages = random.pick(&drawn.besides).with(&store);
            ask(Question::check_index(pages, drawn.operand(random, t), k));
        }
    }
}

/// Each target with and without room for a union.
fn indexed_with_rooms(beside: &Beside, ask: Sink) {
    for target in &small() {
        for key in [INT, STRING, BOOL] {
            let (store, [number]) = stored([target], 0);
            let target = operand(number, &[0]);
            let question =
                |page: &[u8]| Question::check_index(beside.with(page), target, key.into());
            with_rooms(&store, question, ask);
        }
    }
}

/// Every unit with every other, under every operator, over types that pass some of them.
fn all_units(drawn: &Drawn, ask: Sink) {
    let ints = over(ANY, &[INT, CINT]);
    let pairs = [
        (fixed(INT), fixed(CINT)),
        (fixed(CUINT), fixed(UINT)),
        (fixed(FLOAT), fixed(FLOAT)),
        (fixed(BYTE), fixed(CBYTE)),
        (fixed(STRING), fixed(CSTRING)),
        (named(RECORD, A), named(RECORD, B)),
        (ints.clone(), fixed(INT)),
        (fixed(CINT), of(CANY, &[ints.clone(), fixed(INT)])),
        (holding(ANY, &holding(ANY, &over(ANY, &[FLOAT]))), over(CANY, &[CFLOAT, FLOAT])),
        (ints, fixed(BOOL)),
        (over(ANY, &[INT, FLOAT]), fixed(INT)),
    ];
    for (left, right) in &pairs {
        let (store, [l, r]) = stored([left, right], 0);
        for beside in drawn.besides.iter().step_by(2) {
            for left in &drawn.units {
                for right in &drawn.units {
                    for op in 1..=13 {
                        let (l, r) = (operand(l, left), operand(r, right));
                        ask(Question::check_binary_operator(beside.with(&store), op, l, r));
                    }
                }
            }
        }
    }
    for shape in &plain() {
        let (store, [number]) = stored([shape], 0);
        for beside in &drawn.besides {
            for unit in &drawn.units {
                let target = operand(number, unit);
                ask(Question::check_index(beside.with(&store), target, INT.into()));
            }
        }
    }
}
