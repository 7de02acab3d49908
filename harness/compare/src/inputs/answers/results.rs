//! Unions that are answered: wide ones, nested ones, equal ones, with and without room, and
//! in a store that has no number left.

use super::operands::{besides, operand, Beside, MINUS, PLUS};
use crate::call::Question;
use crate::inputs::types::many;
use crate::inputs::types::shapes::{
    array, enter, fixed, holding, of, over, stored, Shape, ANY, ARRAY, CANY, CFLOAT, CINT, FLOAT,
    FN, GENERIC, INT, MAP, SET,
};
use crate::inputs::Sink;
use crate::limits::{FIXED_TYPES, MAX_CHILDREN, MAX_ENTRIES, MAX_NAMES, NO_UNIT};
use crate::types::store::{page_of, Entry, Store};

/// How much room is tried: none, and about what one union needs, two, and many.
const ROOMS: [usize; 18] =
    [0, 1, 5, 6, 7, 11, 12, 13, 18, 33, 34, 35, 70, 100, 150, 200, 300, 2_000];

pub fn questions(ask: Sink) {
    let besides = besides();
    for answer in &answers_of_minus() {
        negated(&source(answer), &besides, ask);
    }
    for count in [1, 2, 15, 16, 17, 18, 40, 256] {
        indexed(&target(count), &besides, ask);
    }
    full_stores(&besides, ask);
}

/// A union whose negation answers this type: its members are hidden one level deeper, since
/// the level below a union is flattened.
pub fn source(answer: &Shape) -> Shape {
    if answer.kind != ANY {
        return answer.clone();
    }
    let members: Vec<Shape> = answer.children.iter().map(source).collect();
    let parts: Vec<Shape> = members.chunks(MAX_CHILDREN).map(|part| of(ANY, part)).collect();
    of(ANY, &parts)
}

/// So many different unions of two, over Int and Float and over one another.
pub fn different(count: usize) -> Vec<Shape> {
    let leaves = [fixed(INT), fixed(FLOAT)];
    let mut all = leaves.to_vec();
    while all.len() < leaves.len() + count {
        for first in all.clone() {
            for second in all.clone() {
                let union = of(ANY, &[first.clone(), second.clone()]);
                if first != second && !all.contains(&union) {
                    all.push(union);
                }
            }
        }
    }
    all.drain(leaves.len()..).take(count).collect()
}

/// Unions that negation can answer: of up to 18 members, below one another, and too wide
/// at the top, at the bottom, and before or after one that needs a place.
pub fn answers_of_minus() -> Vec<Shape> {
    let numbers = over(ANY, &[INT, FLOAT]);
    let wide = of(ANY, &different(MAX_CHILDREN + 1));
    let mut answers = vec![
        fixed(INT),
        numbers.clone(),
        of(ANY, &[numbers.clone(), fixed(INT)]),
        of(ANY, &[fixed(FLOAT), numbers.clone(), over(ANY, &[FLOAT, INT])]),
        of(ANY, &[of(ANY, &[numbers.clone(), fixed(INT)]), numbers.clone()]),
        of(ANY, &[wide.clone(), fixed(INT)]),
        of(ANY, &[over(ANY, &[FLOAT, INT]), wide.clone()]),
        of(ANY, &[wide, over(ANY, &[FLOAT, INT])]),
    ];
    for count in [MAX_CHILDREN - 1, MAX_CHILDREN, MAX_CHILDREN + 1, MAX_CHILDREN + 2] {
        answers.push(of(ANY, &different(count)));
    }
    answers
}

/// A union's negation with each room, and its sum with Int.
fn negated(union: &Shape, besides: &[Beside], ask: Sink) {
    for (place, room) in ROOMS.into_iter().enumerate() {
        let beside = &besides[place % besides.len()];
        let (store, [number]) = stored([union], room);
        let operand = operand(number, &[1, 0, 0, 1]);
        ask(Question::check_unary_operator(beside.with(&store), MINUS, operand));
    }
    // Where the answer is there already, and where a part of it is.
    for known in [over(ANY, &[INT, FLOAT]), over(CANY, &[INT, FLOAT]), over(ANY, &[FLOAT, INT])] {
        let (store, [_, number]) = stored([&known, union], 40);
        let operand = operand(number, &NO_UNIT);
        ask(Question::check_unary_operator(besides[0].with(&store), MINUS, operand));
    }
}

/// A union of so many different arrays, sets and maps, sixteen of them to a part.
pub fn target(count: usize) -> Shape {
    let kinds = (0..=FN).map(fixed);
    let kinds = kinds.chain((0..=FN).map(|kind| over(ARRAY, &[kind])));
    let kinds =
        kinds.chain((0..=FN).flat_map(|key| (0..=FN).map(move |value| over(MAP, &[key, value]))));
    let members: Vec<Shape> = kinds
        .enumerate()
        .map(|(place, kind)| match place % 3 {
            0 => array(kind),
            1 => holding(SET, &kind),
            _ => of(MAP, &[fixed(INT), kind]),
        })
        .take(count)
        .collect();
    let parts: Vec<Shape> = members.chunks(MAX_CHILDREN).map(|part| of(ANY, part)).collect();
    of(CANY, &parts)
}

/// The target indexed with each room, by a key that its maps take and by one that they do not.
fn indexed(target: &Shape, besides: &[Beside], ask: Sink) {
    for (place, room) in ROOMS.into_iter().enumerate() {
        let beside = &besides[place % besides.len()];
        let (store, [number]) = stored([target], room);
        for key in [INT, FLOAT] {
            let target = operand(number, &[1, 1, 0, 1]);
            ask(Question::check_index(beside.with(&store), target, key.into()));
        }
    }
}

/// Operands in a store with two places left, one or none; and where the answer is known.
fn full_stores(besides: &[Beside], ask: Sink) {
    let numbers = over(ANY, &[CINT, CFLOAT]);
    let answer = of(ANY, &[over(ANY, &[INT, FLOAT]), fixed(INT)]);
    let arrays = of(ANY, &[over(ARRAY, &[INT]), over(SET, &[FLOAT])]);
    let mut store = Store::default();
    let operands = [numbers, source(&answer), arrays].map(|shape| enter(&mut store, &shape));
    let known = Entry::of(ANY, &[INT.into(), FLOAT.into()]);
    let mut entries: Vec<Entry> =
        (FIXED_TYPES as u16..store.count() as u16).map(|number| store.entry(number)).collect();
    for with_known in [false, true] {
        if with_known {
            entries.push(known.clone());
        }
        let all: Vec<Entry> = entries.iter().cloned().chain(many(MAX_ENTRIES)).collect();
        for count in [MAX_ENTRIES - 2, MAX_ENTRIES - 1, MAX_ENTRIES, MAX_ENTRIES + 1] {
            let page = page_of(&all[..count], 30_000);
            // Names are not lent: the store has all of them.
            let pages = besides[1].with(&page);
            for number in operands {
                let union = operand(number, &[0]);
                ask(Question::check_unary_operator(pages, MINUS, union));
                ask(Question::check_index(pages, union, INT.into()));
                ask(Question::check_binary_operator(pages, PLUS, union, operand(INT, &NO_UNIT)));
            }
            let last = (FIXED_TYPES + count - 1) as u32;
            let generic = (FIXED_TYPES + entries.len() + 5 * MAX_NAMES) as u32;
            assert_eq!(all[generic as usize - FIXED_TYPES].kind, GENERIC);
            ask(Question::check_index(pages, operand(generic, &NO_UNIT), last));
            ask(Question::check_index(pages, operand(last, &NO_UNIT), generic));
        }
    }
}
