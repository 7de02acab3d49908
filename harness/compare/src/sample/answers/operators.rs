//! The chosen rows of the operators' rules: each kind under each, units, unions, and the
//! limits that a final answer meets.

use super::{pages, FIXED_ALONE};
use crate::call::Question;
use crate::inputs::answers::operands::{
    operand, several, AND, BANG, EQUAL, IN, LESS, MINUS, MM, OR, PLUS, S, SLASH, STAR,
};
use crate::inputs::answers::results::{answers_of_minus, source};
use crate::inputs::pairs::{page_of, pairs};
use crate::inputs::types::shapes::{
    fixed, holding, named, of, over, stored, Shape, A, ANY, ARRAY, B, BOOL, BYTE, CALLBACK, CANY,
    CBOOL, CBYTE, CENUM, CFLOAT, CHAR, CINT, CRECORD, CSTRING, CUINT, ENUM, FLOAT, FN, INT, NULL,
    RECORD, STRING, UINT,
};
use crate::limits::{FUNCTION, MAX_SYMBOLS, NO_UNIT, UNKNOWN};
use crate::units::{unit_bytes, Term};

pub fn chosen() -> Vec<Question> {
    [
        every_operator(),
        every_class(),
        sums(),
        products(),
        unions(),
        functions(),
        every_unary(),
        unary_unions(),
        answered_unions(),
    ]
    .concat()
}

/// A binary operator, where in and mm are a pair.
fn binary(op: u32, left: (&Shape, &[u8]), right: (&Shape, &[u8])) -> Question {
    let (store, [l, r]) = stored([left.0, right.0], 0);
    let table = page_of(&pairs(&[(IN, MM)]), 0);
    let (l, r) = (operand(l, left.1), operand(r, right.1));
    Question::check_binary_operator(pages(&store, &table), op, l, r)
}

/// Two fixed types with units in form.
fn of_kinds(op: u32, left: (u8, &[Term]), right: (u8, &[Term])) -> Question {
    let [l, r] = [left, right].map(|(kind, terms)| (fixed(kind), unit_bytes(terms)));
    binary(op, (&l.0, &l.1), (&r.0, &r.1))
}

/// All thirteen on numbers with one unit, and one of each sort on some with two that do not
/// convert.
fn every_operator() -> Vec<Question> {
    let (mm, s): (&[Term], &[Term]) = (&[(MM, 1)], &[(S, 1)]);
    let equal = (1..=13).map(|op| of_kinds(op, (INT, mm), (CINT, mm)));
    let others = [PLUS, MINUS, SLASH, LESS, EQUAL, OR];
    equal.chain(others.map(|op| of_kinds(op, (CUINT, mm), (UINT, s)))).collect()
}

/// Kinds that pass an operator together and that do not.
fn every_class() -> Vec<Question> {
    let kinds = [
        (PLUS, FLOAT, CFLOAT),
        (PLUS, BYTE, CBYTE),
        (PLUS, BYTE, INT),
        (MINUS, INT, UINT),
        (STAR, NULL, INT),
        (SLASH, STRING, STRING),
        (LESS, CBYTE, BYTE),
        (LESS, FLOAT, INT),
        (LESS, CHAR, CHAR),
        (EQUAL, STRING, CSTRING),
        (EQUAL, CHAR, CHAR),
        (EQUAL, CBOOL, BOOL),
        (EQUAL, NULL, NULL),
        (EQUAL, INT, BOOL),
        (AND, BOOL, CBOOL),
        (OR, INT, BOOL),
        (OR, CBOOL, FN),
        (BANG, BOOL, BOOL),
    ];
    let (mm, s): (&[Term], &[Term]) = (&[(MM, 1)], &[(S, 1)]);
    let mut questions: Vec<Question> =
        kinds.map(|(op, left, right)| of_kinds(op, (left, mm), (right, mm))).to_vec();
    // Which comparisons look at units.
    for (op, kind) in [(LESS, FLOAT), (LESS, BYTE), (EQUAL, BYTE), (EQUAL, BOOL), (AND, BOOL)] {
        questions.push(of_kinds(op, (kind, mm), (kind, s)));
    }
    let [enum_a, enum_b] = [named(ENUM, A), named(CENUM, B)];
    let [record_a, record_b] = [named(RECORD, B), named(CRECORD, A)];
    let array = over(ARRAY, &[INT]);
    for (left, right) in
        [(&enum_a, &enum_b), (&record_a, &record_b), (&enum_a, &record_a), (&array, &array)]
    {
        questions.push(binary(EQUAL, (left, &NO_UNIT), (right, &NO_UNIT)));
    }
    questions
}

/// Which unit a sum has, by both sides' units.
fn sums() -> Vec<Question> {
    let unit = |terms: &[Term]| unit_bytes(terms);
    let (none, empty) = (NO_UNIT.to_vec(), unit(&[]));
    let (mm, inch, square) = (unit(&[(MM, 1)]), unit(&[(IN, 1)]), unit(&[(MM, 2)]));
    // No more symbols than in the empty unit once in and mm are taken for one.
    let ratio = unit(&[(MM, 1), (IN, -1)]);
    let sides = [
        (&none, &none),
        (&none, &empty),
        (&empty, &empty),
        (&none, &mm),
        (&mm, &empty),
        (&mm, &inch),
        (&inch, &mm),
        (&mm, &square),
        (&ratio, &empty),
        (&ratio, &mm),
    ];
    let int = fixed(INT);
    sides.map(|(left, right)| binary(PLUS, (&int, left), (&int, right))).to_vec()
}

/// Products and quotients: joined, cancelled, at the limits and past them; none where the
/// types do not match.
fn products() -> Vec<Question> {
    let eight = several(0, MAX_SYMBOLS);
    let mut many = several(1, MAX_SYMBOLS - 1);
    many.insert(0, (MM, 1000));
    let sides: [(u32, &[Term], &[Term]); 11] = [
        (STAR, &[], &[]),
        (STAR, &[(MM, 1)], &[(IN, 1)]),
        (STAR, &[(MM, 1), (S, -1)], &[(S, 1)]),
        (STAR, &[(MM, 1)], &[(MM, -1)]),
        (SLASH, &[(MM, 1)], &[(MM, 1)]),
        (SLASH, &[(MM, 1000)], &[(MM, 1)]),
        (STAR, &[(MM, 1000)], &[(MM, 1)]),
        (SLASH, &[(MM, -1000)], &[(MM, 1)]),
        (STAR, &eight, &[(8, 1)]),
        (SLASH, &eight, &[(7, 1), (8, 1)]),
        (STAR, &many, &[(MM, 1), (200, 1), (201, 1)]),
    ];
    let mut questions: Vec<Question> =
        sides.iter().map(|&(op, left, right)| of_kinds(op, (INT, left), (INT, right))).collect();
    questions.push(of_kinds(STAR, (INT, &[(MM, 1000)]), (BOOL, &[(MM, 1)])));
    let (int, mm) = (fixed(FLOAT), unit_bytes(&[(MM, 1)]));
    questions.push(binary(STAR, (&int, &NO_UNIT), (&int, &mm)));
    questions.push(binary(SLASH, (&int, &NO_UNIT), (&int, &mm)));
    questions
}

/// Unions on either side: passing, failing, of nothing, of unions; and units in them.
fn unions() -> Vec<Question> {
    let (mm, s) = (unit_bytes(&[(MM, 1)]), unit_bytes(&[(S, 1)]));
    let m_1000 = unit_bytes(&[(MM, 1000)]);
    let int = fixed(INT);
    let (ints, numbers) = (over(ANY, &[INT, CINT]), over(CANY, &[INT, FLOAT]));
    let nothing = over(ANY, &[]);
    let twice = |shape: &Shape| holding(ANY, &holding(ANY, shape));
    let cases = [
        (PLUS, ints.clone(), int.clone()),
        (PLUS, int.clone(), numbers.clone()),
        (PLUS, numbers.clone(), numbers.clone()),
        (LESS, ints.clone(), ints.clone()),
        (PLUS, nothing.clone(), int.clone()),
        (PLUS, int.clone(), holding(ANY, &nothing)),
        (PLUS, of(ANY, &[nothing.clone(), int.clone()]), int.clone()),
        (PLUS, of(ANY, &[holding(ANY, &nothing), int.clone()]), int.clone()),
        (PLUS, of(ANY, &[holding(CANY, &numbers), int.clone()]), int.clone()),
        (PLUS, twice(&ints), ints.clone()),
        (PLUS, twice(&numbers), int.clone()),
        (PLUS, twice(&twice(&ints)), twice(&ints)),
        (PLUS, nothing.clone(), nothing.clone()),
        (EQUAL, over(ANY, &[STRING, BOOL]), fixed(STRING)),
        (AND, over(ANY, &[BOOL, CBOOL]), fixed(BOOL)),
        (AND, over(ANY, &[INT]), over(ANY, &[INT, BOOL])),
        (BANG, over(ANY, &[BOOL]), fixed(BOOL)),
        (BANG, nothing, fixed(BOOL)),
        (STAR, ints.clone(), over(CANY, &[CINT])),
    ];
    let mut questions: Vec<Question> =
        cases.iter().map(|(op, left, right)| binary(*op, (left, &mm), (right, &mm))).collect();
    questions.push(binary(EQUAL, (&ints, &mm), (&int, &s)));
    questions.push(binary(PLUS, (&ints, &mm), (&int, &s)));
    questions.push(binary(LESS, (&over(ANY, &[UINT]), &mm), (&fixed(UINT), &s)));
    questions.push(binary(STAR, (&numbers, &m_1000), (&int, &mm)));
    questions.push(binary(STAR, (&over(ANY, &[INT]), &m_1000), (&int, &mm)));
    questions
}

/// Functions, Callbacks and Unknown as operands, beside a union too.
fn functions() -> Vec<Question> {
    let (store, [callback, union]) = stored([&over(CALLBACK, &[INT]), &over(ANY, &[INT])], 0);
    let function = FUNCTION + u32::from(callback);
    let table = page_of(&[], 0);
    let binary = [
        (PLUS, function, function),
        (AND, function, BOOL.into()),
        (PLUS, function, union.into()),
        (EQUAL, callback.into(), callback.into()),
        (PLUS, union.into(), callback.into()),
        (BANG, UNKNOWN, union.into()),
        (AND, INT.into(), UNKNOWN),
    ];
    let mm = [1, MM, 0, 1];
    let ask = |(op, left, right): (u32, u32, u32)| {
        let (left, right) = (operand(left, &mm), operand(right, &[0]));
        Question::check_binary_operator(pages(&store, &table), op, left, right)
    };
    let mut questions = binary.map(ask).to_vec();
    for (op, checked) in [(MINUS, function), (BANG, UNKNOWN), (PLUS, UNKNOWN), (OR, function)] {
        questions.push(Question::check_unary_operator(
            pages(&store, b""),
            op,
            operand(checked, &mm),
        ));
    }
    questions
}

fn unary(op: u32, shape: &Shape, unit: &[u8], room: usize) -> Question {
    let (store, [number]) = stored([shape], room);
    Question::check_unary_operator(pages(&store, b""), op, operand(number, unit))
}

/// All thirteen on a number, and the two that there are on every plain kind.
fn every_unary() -> Vec<Question> {
    let mm = [1, MM, 0, 1];
    let mut questions: Vec<Question> =
        (1..=13).map(|op| unary(op, &fixed(CFLOAT), &mm, 0)).collect();
    for kind in 0..=FN {
        let pages = pages(FIXED_ALONE, b"");
        questions.push(Question::check_unary_operator(pages, MINUS, operand(kind, &NO_UNIT)));
        if kind > INT && kind < STRING {
            questions.push(Question::check_unary_operator(pages, BANG, operand(kind, &[0])));
        }
    }
    for shape in [named(RECORD, A), over(ARRAY, &[INT]), over(CALLBACK, &[BOOL])] {
        questions.push(unary(MINUS, &shape, &mm, 0));
        questions.push(unary(BANG, &shape, &mm, 0));
    }
    questions.push(unary(MINUS, &fixed(INT), &[0], 0));
    questions.push(unary(MINUS, &fixed(INT), &unit_bytes(&several(9, MAX_SYMBOLS)), 0));
    questions
}

/// Unions under unary operators: which unit is kept, and which members fail.
fn unary_unions() -> Vec<Question> {
    let mm = [1, MM, 0, 1];
    let nothing = over(ANY, &[]);
    let shapes = [
        over(ANY, &[INT, FLOAT]),
        over(CANY, &[INT]),
        over(ANY, &[CINT, INT]),
        over(ANY, &[INT, UINT, BOOL]),
        nothing.clone(),
        holding(ANY, &nothing),
        of(ANY, &[nothing.clone(), fixed(INT)]),
        of(ANY, &[fixed(INT), holding(ANY, &nothing)]),
        of(ANY, &[holding(ANY, &over(ANY, &[INT, CINT])), fixed(CINT)]),
        of(ANY, &[holding(ANY, &over(ANY, &[BOOL, CBOOL])), fixed(INT)]),
        over(ANY, &[BOOL, CBOOL]),
    ];
    let mut questions = Vec::new();
    for shape in &shapes {
        for op in [MINUS, BANG] {
            questions.push(unary(op, shape, &mm, 0));
        }
    }
    questions.push(unary(PLUS, &shapes[0], &mm, 0));
    questions.push(unary(PLUS, &nothing, &mm, 0));
    questions.push(unary(MINUS, &shapes[1], &[0], 0));
    questions.push(unary(MINUS, &shapes[0], &[0], 0));
    questions
}

/// Unions that are answered, with room for all, for one, for none; one there already; and
/// those that are too wide.
fn answered_unions() -> Vec<Question> {
    let mut questions = Vec::new();
    for room in [5, 6, 7] {
        questions.push(unary(MINUS, &over(ANY, &[CINT, CFLOAT]), &NO_UNIT, room));
    }
    let answers = answers_of_minus();
    for answer in &answers[..5] {
        for room in [0, 6, 40] {
            questions.push(unary(MINUS, &source(answer), &[0], room));
        }
    }
    // Too wide inside; after a union that needs a place, and before it.
    for (answer, room) in [(5, 400), (6, 5), (6, 400), (7, 400)] {
        questions.push(unary(MINUS, &source(&answers[answer]), &NO_UNIT, room));
    }
    let known = over(ANY, &[INT, FLOAT]);
    for union in [over(CANY, &[INT, FLOAT]), over(ANY, &[CINT, CFLOAT]), over(ANY, &[FLOAT, INT])] {
        let (store, [_, number]) = stored([&known, &union], 0);
        let pages = pages(&store, b"");
        questions.push(Question::check_unary_operator(pages, MINUS, operand(number, &[0])));
    }
    questions
}
