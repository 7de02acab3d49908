//! Formulas at the limits of depth, nodes, units and unions, and harmed ones.

use crate::formulas::{Case, Formula, Written, MINUS, NODE_BYTES, PLUS, SLASH, STAR};
use crate::inputs::answers::results::{answers_of_minus, source, target};
use crate::inputs::damaged_somewhere;
use crate::inputs::pairs::page_of;
use crate::inputs::types::shapes::{stored, CHAR, CINT, FLOAT, INT};
use crate::limits::{MAX_NAMES, MAX_SYMBOLS, PAIR_BYTES};
use crate::random::Random;
use crate::types::store::Store;
use crate::units::{unit_bytes, Term};

/// About as deep as a formula can be, or about as many nodes, where a limit of units may be
/// passed as well.
pub fn extreme(random: &mut Random, formula: &mut Formula) {
    if random.once_in(6) {
        *formula = nine_symbols(random);
        return;
    }
    let many = random.once_in(3);
    let count = if many { 255 + random.below(4) } else { 31 + random.below(4) };
    let exponent: i16 = *random.pick(&[1, 30, 31, 32, 500, 1_000]);
    let unit = unit_bytes(&[(0, exponent)]);
    let mut nodes = Written::Value { ty: INT.into(), unit: &unit }.bytes(0);
    for number in 1..count {
        let last = (number - 1) as u8;
        let written = match random.below(5) {
            _ if many && number < 255 => Written::Value { ty: CINT.into(), unit: &unit },
            0 | 1 => Written::Unary { op: MINUS, operand: last },
            2 => Written::Binary { op: PLUS, left: last, right: last },
            3 => Written::Binary { op: STAR, left: last, right: 0 },
            _ => Written::Binary { op: SLASH, left: last, right: 0 },
        };
        nodes.extend(written.bytes(0));
    }
    let last = nodes.len() / NODE_BYTES - 1;
    *formula = Formula { nodes, root: last as u32 };
}

/// Eight symbols multiplied with another one, or divided, and at times past the exponents' limit.
fn nine_symbols(random: &mut Random) -> Formula {
    let first: Vec<Term> = (0..MAX_SYMBOLS as u8).map(|symbol| (symbol, 1_000)).collect();
    let exponent = *random.pick(&[1, -1, 1_000]);
    let second = [(*random.pick(&[0, 7]), exponent), (MAX_SYMBOLS as u8, 1)];
    let second = &second[random.below(2)..];
    let (first, second) = (unit_bytes(&first), unit_bytes(second));
    let nodes = [
        Written::Value { ty: INT.into(), unit: &first },
        Written::Value { ty: INT.into(), unit: &second },
        Written::Binary { op: *random.pick(&[STAR, SLASH]), left: 0, right: 1 },
    ];
    Formula { nodes: nodes.iter().flat_map(|node| node.bytes(0)).collect(), root: 2 }
}

/// Unions that are answered, wide ones and nested ones, with and without room for them.
pub fn wide(random: &mut Random) -> Case {
    let mut shapes = answers_of_minus();
    let union = source(&shapes.swap_remove(random.below(shapes.len())));
    let arrays = target(*random.pick(&[2, 15, 16, 17, 40]));
    let room = *random.pick(&[0, 5, 6, 12, 33, 34, 35, 60, 200, 2_000]);
    let (store, [union, arrays]) = stored([&union, &arrays], room);
    let unit = unit_bytes(&[(0, 1)]);
    let negated =
        [Written::Value { ty: union, unit: &unit }, Written::Unary { op: MINUS, operand: 0 }];
    let indexed =
        [Written::Value { ty: arrays, unit: &unit }, Written::Index { target: 0, key: 0 }];
    let number = [Written::Value { ty: INT.into(), unit: &unit }];
    // The first type that an answer enters, a union, as the other formula may name it.
    let next = Store::read(&store, MAX_NAMES).expect("in form").count() as u16;
    let entered =
        [Written::Value { ty: next, unit: &unit }, Written::Unary { op: MINUS, operand: 0 }];
    let choices: [&[Written]; 4] = [&negated, &indexed, &number, &entered];
    let [left, right] = [0; 2].map(|_| {
        let nodes = *random.pick(&choices);
        let bytes = nodes.iter().flat_map(|node| node.bytes(0)).collect();
        Formula { nodes: bytes, root: random.below(nodes.len()) as u32 }
    });
    let pairs = page_of(&[], 0);
    Case { store, names: Vec::new(), lent: false, pairs, requests: Vec::new(), left, right }
}

/// Something out of form, not in use or cut off.
pub fn damage(random: &mut Random, case: &mut Case) {
    let formula = if random.once_in(2) { &mut case.left } else { &mut case.right };
    let count = formula.nodes.len() / NODE_BYTES;
    match random.below(24) {
        0 => case.store = damaged_somewhere(&case.store, random),
        1 => case.names = damaged_somewhere(&case.names, random),
        2 => case.pairs = damaged_somewhere(&case.pairs, random),
        3 => case.requests.extend(vec![0; 1 + random.below(PAIR_BYTES)]),
        4 => formula.nodes.extend(vec![0; 1 + random.below(NODE_BYTES)]),
        5 => formula.nodes.clear(),
        6 | 7 => {
            let count = count as u32;
            formula.root = *random.pick(&[count, count + 1, 256, 65_536, u32::MAX]);
        }
        _ => {
            let place = NODE_BYTES * random.below(count);
            let bytes = &mut formula.nodes[place..place + NODE_BYTES];
            harm(random, bytes, place / NODE_BYTES);
        }
    }
}

/// A node's bytes changed in a place that is looked at, or put in place of them.
fn harm(random: &mut Random, bytes: &mut [u8], number: usize) {
    let own = number.min(255) as u8;
    match random.below(8) {
        0 => bytes[0] = *random.pick(&[4, 5, 128, 255]),
        1 => {
            let op = *random.pick(&[0, 14, 128, 255]);
            let operand = own.saturating_sub(random.below(2) as u8);
            bytes[..4].copy_from_slice(&[1 + random.below(2) as u8, op, operand, own]);
        }
        2 => {
            let operand = *random.pick(&[own, own.saturating_add(1), 255]);
            bytes[..4].copy_from_slice(&[3, operand, 0, 0]);
        }
        3 => bytes[..4].copy_from_slice(&[2, PLUS, 0, own]),
        4 => bytes[..4].copy_from_slice(&[0, *random.pick(&[1, 255]), random.byte(), 255]),
        5 => {
            // Eight symbols stand there, and at times one of them is not in use, or the type.
            let (ty, count) =
                (*random.pick(&[INT, INT, INT, 255]), random.pick(&[9, 10, 128, 254]));
            bytes[..4].copy_from_slice(&[0, 0, ty, *count]);
            bytes[4..].copy_from_slice(&[random.byte() % 2, 0, 1].repeat(MAX_SYMBOLS));
            if random.once_in(2) {
                bytes[4 + 3 * random.below(MAX_SYMBOLS)] = random.byte();
            }
        }
        6 => {
            let symbol = random.byte();
            let exponent: [u8; 2] = random.pick(&[0_i16, 1_001, -1_001, 1]).to_be_bytes();
            let unit = [0, 0, FLOAT, 1, symbol, exponent[0], exponent[1]];
            bytes[..7].copy_from_slice(&unit);
        }
        _ => {
            let second = *random.pick(&[0, 1, 255]);
            let (ty, unit) = (CHAR, [2, 1, 0, 1, second, 0, 1]);
            bytes[..3].copy_from_slice(&[0, 0, ty]);
            bytes[3..10].copy_from_slice(&unit);
        }
    }
}
