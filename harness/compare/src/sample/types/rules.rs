//! The chosen rows of the rules of types.rs: what matches and what unifies, yes and no,
//! with the bindings before and after.

use super::NO_NAMES;
use crate::call::Question;
use crate::inputs::names::table_on;
use crate::inputs::types::shapes::{
    array, bindings, fixed, generic, holding, named, of, over, stored, Shape, A, ANY, ARRAY, B,
    BOOL, BYTE, CALLBACK, CANY, CARRAY, CBYTE, CINT, CMAP, CRESULT, CSET, CTUPLE, FLOAT, FN,
    HANDLE, HANDLE_INFER, INT, MAP, NULL, RECORD, RESULT, SET, STRING, TUPLE,
};
use crate::limits::{BINDINGS_BYTES, FUNCTION, MAX_BINDINGS, UNKNOWN};
use crate::types::bindings::{name_at, type_at};

pub fn chosen() -> Vec<Question> {
    [
        marked_cases(),
        const_matches(),
        elisions(),
        named_types(),
        unions(),
        functions(),
        unified(),
        bound_already(),
        arguments(),
        full_bindings(),
        broken_bindings(),
    ]
    .concat()
}

fn matches(actual: &Shape, expected: &Shape) -> Question {
    let (page, [actual, expected]) = stored([actual, expected], 0);
    Question::matches(&page, NO_NAMES, false, actual.into(), expected.into())
}

/// Both ways round.
fn both_ways(pairs: &[(Shape, Shape)]) -> Vec<Question> {
    pairs.iter().flat_map(|(left, right)| [matches(left, right), matches(right, left)]).collect()
}

/// Two types, the expected one first, with nothing bound beforehand.
fn unify(expected: &Shape, actual: &Shape) -> Question {
    let (page, [expected, actual]) = stored([expected, actual], 0);
    let numbers = [expected.into(), actual.into()];
    Question::unify(&page, NO_NAMES, false, numbers, &bindings(&[]))
}

/// Document 01's cases marked *, and the two beside them.
fn marked_cases() -> Vec<Question> {
    let [null, int, cint, byte] = [NULL, INT, CINT, BYTE].map(fixed);
    let mut questions = both_ways(&[
        (null, int.clone()),
        (cint, int.clone()),
        (over(ARRAY, &[INT]), over(CARRAY, &[FLOAT])),
        (over(ARRAY, &[INT]), over(ARRAY, &[FLOAT])),
        (over(TUPLE, &[]), over(TUPLE, &[INT])),
        (over(TUPLE, &[NULL, INT]), over(TUPLE, &[INT, INT])),
    ]);
    let a = generic(A);
    questions.push(unify(&of(TUPLE, &[a.clone(), fixed(BOOL)]), &over(TUPLE, &[INT, FLOAT])));
    questions.push(unify(&of(TUPLE, &[a.clone(), fixed(BOOL)]), &over(TUPLE, &[INT])));
    questions.push(unify(&array(a), &over(ARRAY, &[NULL])));
    questions.push(unify(&array(byte.clone()), &over(ARRAY, &[INT])));
    questions.push(unify(&byte, &int));
    questions
}

/// Each plain kind against its const one, over types that do not match.
fn const_matches() -> Vec<Question> {
    let mut pairs: Vec<(Shape, Shape)> =
        (INT..HANDLE_INFER).step_by(2).map(|kind| (fixed(kind), fixed(kind + 1))).collect();
    for kind in [ARRAY, SET, RESULT] {
        pairs.push((over(kind, &[INT]), over(kind + 1, &[FLOAT])));
        pairs.push((over(kind, &[INT]), over(kind, &[FLOAT])));
    }
    pairs.push((over(MAP, &[INT, INT]), over(CMAP, &[STRING, FLOAT])));
    pairs.push((over(TUPLE, &[INT]), over(CTUPLE, &[FLOAT, FLOAT])));
    pairs.push((over(CALLBACK, &[INT]), fixed(FN)));
    pairs.push((fixed(INT), fixed(FLOAT)));
    pairs.push((over(SET, &[INT]), over(SET, &[INT])));
    both_ways(&pairs)
}

/// Null below arrays, tuples and maps of one kind, where it stands for any type.
fn elisions() -> Vec<Question> {
    let arrays = |child: &Shape| [array(child.clone()), holding(CARRAY, child)];
    let [null, int] = [NULL, INT].map(fixed);
    let [of_null, of_int] = [&null, &int].map(|child| array(child.clone()));
    let mut pairs = vec![
        (of_null.clone(), of_int.clone()),
        (array(of_null.clone()), array(of_int.clone())),
        (array(of_int.clone()), array(over(ARRAY, &[FLOAT]))),
        (array(over(TUPLE, &[NULL])), array(over(TUPLE, &[INT]))),
        (array(over(MAP, &[NULL, NULL])), array(over(MAP, &[INT, INT]))),
        (over(SET, &[NULL]), over(SET, &[INT])),
        (over(RESULT, &[NULL]), over(RESULT, &[INT])),
        (over(TUPLE, &[NULL, NULL]), over(TUPLE, &[INT, INT])),
        (over(TUPLE, &[NULL, NULL]), over(TUPLE, &[INT])),
        (over(TUPLE, &[INT, INT]), over(TUPLE, &[INT])),
        (of(TUPLE, &[of_null.clone(), null]), of(TUPLE, &[of_int.clone(), int])),
        (over(MAP, &[NULL, NULL]), over(MAP, &[INT, INT])),
        (over(MAP, &[NULL, INT]), over(MAP, &[INT, INT])),
        (over(MAP, &[INT, NULL]), over(MAP, &[NULL, FLOAT])),
        (over(MAP, &[STRING, NULL]), over(MAP, &[INT, INT])),
        (of(MAP, &[fixed(NULL), of_null]), of(MAP, &[fixed(INT), of_int])),
    ];
    pairs.push((array(over(ARRAY, &[NULL])), array(over(CARRAY, &[INT]))));
    pairs.push((array(over(TUPLE, &[NULL])), array(over(CTUPLE, &[INT]))));
    let maps = [over(MAP, &[NULL, NULL]), over(CMAP, &[INT, INT])]
        .map(|inner| of(MAP, &[fixed(NULL), inner]));
    let [first, second] = maps;
    pairs.push((first, second));
    let [plain, constant] = arrays(&over(MAP, &[INT, INT]));
    pairs.push((plain, constant));
    both_ways(&pairs)
}

/// Records, enums and handles of one name and of two.
fn named_types() -> Vec<Question> {
    let mut pairs = Vec::new();
    for kind in [RECORD, RECORD + 2] {
        pairs.push((named(kind, A), named(kind, B)));
        pairs.push((named(kind, A), named(kind + 1, A)));
        pairs.push((named(kind, A), named(kind + 1, B)));
    }
    pairs.push((named(RECORD, A), named(RECORD + 2, A)));
    pairs.push((named(HANDLE, A), named(HANDLE, A)));
    pairs.push((named(HANDLE, A), named(HANDLE, B)));
    pairs.push((named(HANDLE, A), fixed(HANDLE_INFER)));
    pairs.push((named(HANDLE, A), fixed(INT)));
    pairs.push((fixed(HANDLE_INFER), fixed(HANDLE_INFER)));
    pairs.push((generic(A), fixed(INT)));
    pairs.push((generic(A), generic(B)));
    pairs.push((array(generic(A)), over(ARRAY, &[INT])));
    both_ways(&pairs)
}

/// Members in any order, none, nested, const, against a plain type.
fn unions() -> Vec<Question> {
    let nested = of(ANY, &[over(ANY, &[INT, BOOL])]);
    both_ways(&[
        (fixed(INT), over(ANY, &[FLOAT, INT])),
        (fixed(CINT), over(ANY, &[INT])),
        (fixed(INT), over(ANY, &[])),
        (fixed(NULL), over(ANY, &[])),
        (over(ANY, &[]), over(ANY, &[INT])),
        (over(ANY, &[]), over(CANY, &[])),
        (over(ANY, &[INT, FLOAT]), over(CANY, &[FLOAT, INT])),
        (over(ANY, &[INT, FLOAT]), over(ANY, &[FLOAT, BOOL])),
        (over(ANY, &[INT, INT]), over(ANY, &[INT])),
        (over(ANY, &[CINT, NULL]), over(ANY, &[INT])),
        (fixed(INT), nested.clone()),
        (over(ANY, &[INT]), nested),
        (array(over(ANY, &[INT])), array(over(ANY, &[FLOAT, INT]))),
        (of(ANY, &[over(ARRAY, &[NULL])]), of(ANY, &[over(ARRAY, &[INT])])),
        (of(ANY, &[generic(A)]), over(ANY, &[BOOL])),
        (of(ANY, &[over(CALLBACK, &[INT])]), over(ANY, &[FN])),
        (over(CANY, &[INT, FLOAT, BOOL]), over(ANY, &[BOOL, FLOAT, STRING, INT])),
    ])
}

/// Functions, Callbacks and Unknown on either side.
fn functions() -> Vec<Question> {
    let callback = of(CALLBACK, &[fixed(INT), fixed(BOOL)]);
    let others = [
        over(CALLBACK, &[INT, INT]),
        fixed(FN),
        fixed(NULL),
        fixed(INT),
        generic(A),
        callback.clone(),
    ];
    let mut questions = Vec::new();
    for other in &others {
        let (page, [f, o]) = stored([&callback, other], 0);
        let (f, o) = (u32::from(f), u32::from(o));
        questions.push(Question::matches(&page, NO_NAMES, false, FUNCTION + f, o));
        questions.push(Question::matches(&page, NO_NAMES, false, o, FUNCTION + f));
        if other.kind == CALLBACK {
            questions.push(Question::matches(&page, NO_NAMES, false, FUNCTION + o, FUNCTION + f));
        }
        questions.push(Question::matches(&page, NO_NAMES, false, UNKNOWN, o));
        questions.push(Question::matches(&page, NO_NAMES, false, o, u32::MAX));
    }
    let (page, [union, f]) = stored([&holding(ANY, &callback), &callback], 0);
    questions.push(Question::matches(
        &page,
        NO_NAMES,
        false,
        FUNCTION + u32::from(f),
        union.into(),
    ));
    questions
}

/// Each rule of `unify`, with nothing bound beforehand.
fn unified() -> Vec<Question> {
    let (a, b) = (generic(A), generic(B));
    let [null, int, cint] = [NULL, INT, CINT].map(fixed);
    let cases = [
        (a.clone(), int.clone()),
        (a.clone(), null),
        (a.clone(), b.clone()),
        (a.clone(), a.clone()),
        (int.clone(), a.clone()),
        (int.clone(), cint.clone()),
        (cint.clone(), int.clone()),
        (array(a.clone()), over(CARRAY, &[INT])),
        (array(a.clone()), over(SET, &[INT])),
        (over(CARRAY, &[CBYTE]), over(ARRAY, &[CINT])),
        (over(ARRAY, &[INT]), over(ARRAY, &[BYTE])),
        (over(ARRAY, &[FLOAT]), over(ARRAY, &[NULL])),
        (over(ARRAY, &[NULL]), over(ARRAY, &[FLOAT])),
        (over(ARRAY, &[INT]), over(CARRAY, &[FLOAT])),
        (array(array(over(ARRAY, &[BYTE]))), array(array(over(ARRAY, &[INT])))),
        (holding(SET, &a), over(CSET, &[NULL])),
        (over(SET, &[BYTE]), over(SET, &[INT])),
        (holding(CRESULT, &a), over(RESULT, &[FLOAT])),
        (over(RESULT, &[INT]), over(CRESULT, &[FLOAT])),
        (of(MAP, &[a.clone(), b.clone()]), over(CMAP, &[STRING, INT])),
        (of(MAP, &[a.clone(), a.clone()]), over(MAP, &[STRING, INT])),
        (of(MAP, &[int.clone(), a.clone()]), over(MAP, &[STRING, INT])),
        (of(MAP, &[a.clone(), int.clone()]), over(MAP, &[STRING, FLOAT])),
        (of(TUPLE, &[a.clone(), b.clone(), a.clone()]), over(CTUPLE, &[INT, BOOL, INT])),
        (of(TUPLE, &[a.clone(), a.clone()]), over(TUPLE, &[INT, CINT])),
        (of(TUPLE, &[a.clone(), a.clone()]), over(TUPLE, &[CINT, INT])),
        (of(TUPLE, &[a.clone(), b.clone()]), over(TUPLE, &[INT])),
        (over(TUPLE, &[]), over(TUPLE, &[])),
        (holding(ANY, &a), over(ANY, &[INT])),
        (of(CALLBACK, &[a.clone(), b.clone()]), over(CALLBACK, &[INT, BOOL])),
        (fixed(FN), over(CALLBACK, &[INT])),
        (named(RECORD, A), named(RECORD + 1, A)),
        (of(TUPLE, &[array(a), of(CTUPLE, &[b, cint]), int]), {
            of(TUPLE, &[over(ARRAY, &[BOOL]), over(TUPLE, &[FLOAT, CINT]), fixed(BOOL)])
        }),
    ];
    cases.iter().map(|(expected, actual)| unify(expected, actual)).collect()
}

/// A bound beforehand to what matches and to what does not, and in which order it is asked.
fn bound_already() -> Vec<Question> {
    let a = generic(A);
    let cases = [
        (a.clone(), fixed(INT), fixed(INT)),
        (a.clone(), fixed(FLOAT), fixed(INT)),
        (a.clone(), fixed(INT), fixed(CINT)),
        (a.clone(), fixed(CINT), fixed(INT)),
        (a.clone(), fixed(NULL), fixed(INT)),
        (a.clone(), fixed(INT), fixed(NULL)),
        (a.clone(), generic(A), fixed(INT)),
        (array(a.clone()), fixed(FLOAT), over(ARRAY, &[NULL])),
        (array(a.clone()), fixed(BYTE), over(ARRAY, &[INT])),
        (of(TUPLE, &[generic(B), a]), fixed(FLOAT), over(TUPLE, &[INT, INT])),
    ];
    let mut questions = Vec::new();
    for (expected, to, actual) in &cases {
        let (page, [e, to, a]) = stored([expected, to, actual], 0);
        let bound = bindings(&[(7, 0), (A, to)]);
        questions.push(Question::unify(&page, NO_NAMES, false, [e.into(), a.into()], &bound));
    }
    questions
}

/// Arguments: Known, Unknown, and Functions against Callbacks and others.
fn arguments() -> Vec<Question> {
    let (a, b, int) = (generic(A), generic(B), fixed(INT));
    let function = of(CALLBACK, &[int.clone(), fixed(BOOL)]);
    let expected = [
        of(CALLBACK, &[a.clone(), b.clone()]),
        of(CALLBACK, &[a.clone(), a.clone()]),
        of(CALLBACK, &[a.clone(), int.clone()]),
        holding(CALLBACK, &b),
        of(CALLBACK, &[a.clone(), a.clone(), a.clone()]),
        function.clone(),
        fixed(FN),
        fixed(NULL),
        a.clone(),
        holding(ANY, &function),
        array(a),
    ];
    let mut questions = Vec::new();
    for expected in &expected {
        let (page, [e, f]) = stored([expected, &function], 0);
        for actual in [u32::from(f), FUNCTION + u32::from(f), UNKNOWN] {
            let numbers = [e.into(), actual];
            let bound = bindings(&[]);
            questions.push(Question::unify_arg(&page, NO_NAMES, false, numbers, &bound));
        }
    }
    questions
}

/// So many bindings, of names that the types do not have.
fn taken(count: usize) -> Vec<(u8, u16)> {
    (0..count as u8).map(|place| (100 + place, u16::from(place) % 19)).collect()
}

/// A 32nd binding, a 33rd, and one that is there already.
fn full_bindings() -> Vec<Question> {
    let (a, b) = (generic(A), generic(B));
    let expected = of(CALLBACK, &[a.clone(), fixed(INT), b.clone()]);
    let actual = over(CALLBACK, &[BOOL, FLOAT, BOOL]);
    let (tuple, other) = (of(TUPLE, &[a, b]), over(TUPLE, &[BOOL, FLOAT]));
    let mut questions = Vec::new();
    let mut known = taken(MAX_BINDINGS - 1);
    known.push((A, BOOL.into()));
    for bound in [taken(MAX_BINDINGS - 2), taken(MAX_BINDINGS - 1), taken(MAX_BINDINGS), known] {
        let bound = bindings(&bound);
        let (page, [e, a]) = stored([&tuple, &other], 0);
        questions.push(Question::unify(&page, NO_NAMES, false, [e.into(), a.into()], &bound));
        let (page, [e, a]) = stored([&expected, &actual], 0);
        let numbers = [e.into(), FUNCTION + u32::from(a)];
        questions.push(Question::unify_arg(&page, NO_NAMES, false, numbers, &bound));
        questions.push(Question::substitute(&page, NO_NAMES, false, e.into(), &bound));
    }
    questions
}

/// Each breach of the bindings' form, which past their count is none.
fn broken_bindings() -> Vec<Question> {
    let (page, [number]) = stored([&array(generic(A))], 4);
    let number = u32::from(number);
    let good = bindings(&[(A, 1), (B, 19), (2, 20)]);
    let with = |place: usize, byte: u8| {
        let mut bytes = good;
        bytes[place] = byte;
        bytes
    };
    let all: [[u8; BINDINGS_BYTES]; 12] = [
        good,
        with(0, 33),
        with(0, 255),
        with(name_at(2), A),
        with(name_at(1), 2),
        with(name_at(3), A),
        with(type_at(0) + 1, 21),
        with(type_at(2) + 1, 21),
        with(type_at(2), 1),
        with(type_at(1), 255),
        with(type_at(3) + 1, 21),
        with(0, 4),
    ];
    let each = |names: &[u8], lent: bool, bound: &[u8; BINDINGS_BYTES]| {
        [
            Question::unify(&page, names, lent, [number, 1], bound),
            Question::unify_arg(&page, names, lent, [number, UNKNOWN], bound),
            Question::substitute(&page, names, lent, number, bound),
        ]
    };
    // Each by one call, taken in turn.
    let mut questions = Vec::new();
    for (place, bound) in all.iter().enumerate() {
        questions.push(each(NO_NAMES, false, bound)[place % 3].clone());
    }
    // A name of the bindings that is not in use.
    for words in [&["a", "b", "c"][..], &["a", "b"]] {
        questions.extend(each(&table_on(words, 0), true, &good));
    }
    questions
}
