//! The chosen rows of indexing: each kind of target, the keys of maps, and unions.

use super::pages;
use crate::call::Question;
use crate::inputs::answers::operands::{operand, MM};
use crate::inputs::answers::results::target;
use crate::inputs::types::shapes::{
    array, fixed, generic, holding, named, of, over, stored, Shape, A, ANY, ARRAY, BOOL, CALLBACK,
    CANY, CARRAY, CINT, CMAP, CRESULT, CSET, CTUPLE, FLOAT, FN, GENERIC, INT, MAP, NULL, RECORD,
    SET, STRING, TUPLE,
};
use crate::limits::{FUNCTION, MAX_CHILDREN, NO_UNIT, UNKNOWN};

pub fn chosen() -> Vec<Question> {
    [every_target(), keys(), functions(), unions(), answered_unions()].concat()
}

const MM_BYTES: &[u8] = &[1, MM, 0, 1];

fn index(target: &Shape, key: &Shape, unit: &[u8], room: usize) -> Question {
    let (store, [number, key]) = stored([target, key], room);
    Question::check_index(pages(&store, b""), operand(number, unit), key.into())
}

/// A target of each kind.
fn every_target() -> Vec<Question> {
    let mut targets: Vec<Shape> = (0..=FN).map(fixed).collect();
    targets.extend((ARRAY..=CRESULT).map(|kind| over(kind, &[FLOAT])));
    targets.extend([MAP, CMAP].map(|kind| over(kind, &[INT, BOOL])));
    targets.extend([TUPLE, CTUPLE].map(|kind| over(kind, &[INT])));
    targets.push(over(CALLBACK, &[INT]));
    targets.extend((RECORD..=GENERIC).map(|kind| named(kind, A)));
    targets.push(array(over(ANY, &[INT])));
    let units: [&[u8]; 3] = [MM_BYTES, &[0], &NO_UNIT];
    let asked = |(place, target): (usize, &Shape)| index(target, &fixed(INT), units[place % 3], 0);
    targets.iter().enumerate().map(asked).collect()
}

/// Keys that a map takes and that it does not; an array takes any.
fn keys() -> Vec<Question> {
    let (int, string, null) = (fixed(INT), fixed(STRING), fixed(NULL));
    let union = over(ANY, &[INT, STRING]);
    let cases = [
        (int.clone(), string.clone()),
        (int.clone(), fixed(CINT)),
        (fixed(CINT), int.clone()),
        (null.clone(), int.clone()),
        (int.clone(), null),
        (generic(A), string.clone()),
        (int.clone(), generic(A)),
        (union.clone(), string.clone()),
        (string.clone(), union),
        (over(ARRAY, &[INT]), over(CARRAY, &[FLOAT])),
        (over(ARRAY, &[INT]), over(ARRAY, &[FLOAT])),
    ];
    let mut questions: Vec<Question> = cases
        .iter()
        .map(|(expected, key)| index(&of(MAP, &[expected.clone(), int.clone()]), key, &[0], 0))
        .collect();
    questions.push(index(&over(CMAP, &[INT, BOOL]), &string, MM_BYTES, 0));
    questions.push(index(&over(CSET, &[BOOL]), &over(TUPLE, &[]), MM_BYTES, 0));
    questions
}

/// Functions and Unknown as targets and as keys.
fn functions() -> Vec<Question> {
    let shapes = [
        &over(CALLBACK, &[INT]),
        &over(MAP, &[FN, INT]),
        &over(MAP, &[INT, INT]),
        &of(MAP, &[over(CALLBACK, &[INT]), fixed(INT)]),
        &of(ANY, &[over(MAP, &[INT, INT])]),
    ];
    let (store, numbers) = stored(shapes, 0);
    let [callback, to_fn, to_int, to_callback, union] = numbers.map(u32::from);
    let function = FUNCTION + callback;
    let asked = [
        (function, INT.into()),
        (UNKNOWN, INT.into()),
        (to_fn, function),
        (to_fn, callback),
        (to_int, function),
        (to_int, UNKNOWN),
        (to_callback, function),
        (to_callback, callback),
        (union, function),
        (union, UNKNOWN),
    ];
    let ask = |(target, key): (u32, u32)| {
        Question::check_index(pages(&store, b""), operand(target, MM_BYTES), key)
    };
    asked.map(ask).to_vec()
}

/// Unions as targets: alike, different, failing, of unions, of nothing.
fn unions() -> Vec<Question> {
    let [ints, floats] = [INT, FLOAT].map(|kind| over(ARRAY, &[kind]));
    let nothing = over(ANY, &[]);
    let targets = [
        of(ANY, &[ints.clone(), over(CSET, &[INT])]),
        of(CANY, &[ints.clone(), floats.clone()]),
        of(ANY, &[ints.clone(), over(MAP, &[STRING, INT]), over(CMAP, &[STRING, INT])]),
        of(ANY, &[over(MAP, &[INT, FLOAT]), ints.clone()]),
        of(ANY, &[ints.clone(), over(TUPLE, &[INT]), fixed(NULL), fixed(BOOL)]),
        of(ANY, &[of(CANY, &[ints.clone(), floats.clone()]), over(SET, &[INT])]),
        of(ANY, &[ints.clone(), holding(ANY, &holding(ANY, &floats))]),
        nothing.clone(),
        holding(ANY, &nothing),
        of(ANY, &[nothing.clone(), ints.clone()]),
        of(ANY, &[ints.clone(), holding(CANY, &nothing)]),
        holding(ANY, &array(over(ANY, &[INT, FLOAT]))),
        of(ANY, &[array(over(ANY, &[INT])), ints, over(ARRAY, &[BOOL])]),
        over(ANY, &[FN, BOOL]),
    ];
    targets.iter().map(|target| index(target, &fixed(INT), MM_BYTES, 10)).collect()
}

/// Unions that are answered: with just the room, less and more, there already, and of
/// sixteen and seventeen members.
fn answered_unions() -> Vec<Question> {
    let two = target(2);
    let mut questions: Vec<Question> =
        [0, 5, 6, 7].map(|room| index(&two, &fixed(INT), &NO_UNIT, room)).to_vec();
    for (count, room) in [(MAX_CHILDREN, 33), (MAX_CHILDREN, 34), (MAX_CHILDREN + 1, 0)] {
        questions.push(index(&target(count), &fixed(INT), &[0], room));
    }
    questions.push(index(&target(MAX_CHILDREN + 1), &fixed(INT), &[0], 100));
    // A key that the maps do not take: no union is answered, however wide.
    questions.push(index(&target(MAX_CHILDREN + 1), &fixed(FLOAT), &[0], 0));
    for known in [over(ANY, &[NULL, INT]), over(CANY, &[NULL, INT]), over(ANY, &[INT, NULL])] {
        let (store, [_, number]) = stored([&known, &two], 0);
        let target = operand(number, &NO_UNIT);
        questions.push(Question::check_index(pages(&store, b""), target, INT.into()));
    }
    questions
}
