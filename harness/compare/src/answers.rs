//! The expected answers of operators and indexes.
//!
//! Types, units and errors come from the oracle's `check_binary_operator`,
//! `check_unary_operator`, `check_index_target` and `check_index_any`. This file reads what
//! the calls are given, enters the type that is answered, and applies document 01's limits.

use crate::call::{Call, Given, Operand, Outcome, Pages, Question};
use crate::limits::{Refusal, ABSENT, BROKEN_TABLE, NO_UNIT, UNDEFINED_CODE};
use crate::pairs::{lowest, Pairs};
use crate::types::{are_within_reach, Tables};
use crate::units::{oracle_unit, result_terms, terms_or_none, unit_bytes, Term};
use oracle::reasons::Reason;
use oracle::structs::{CheckType, CheckedExpr, TypeChecker};
use oracle::units::{ConversionTable, Unit};
use rl_ast::statements::TypeAnnotation as Type;
use rl_lexer::tokentypes::TokenType;
use rl_utils::span::Span;

/// The most that the nodes of two operands may come to, multiplied, for the oracle to be
/// asked: it tries every pair of members, and prints those that fail.
const MAX_WORK: usize = 20_000;

/// The operators, the one of code 1 first.
const OPERATORS: [TokenType; 13] = [
    TokenType::Plus,
    TokenType::Minus,
    TokenType::Star,
    TokenType::Slash,
    TokenType::Less,
    TokenType::Greater,
    TokenType::LessEqual,
    TokenType::GreaterEqual,
    TokenType::Compare,
    TokenType::BangEqual,
    TokenType::And,
    TokenType::Or,
    TokenType::Bang,
];

fn operator(code: u32) -> Result<TokenType, Refusal> {
    let place = (code as usize).checked_sub(1);
    place.and_then(|place| OPERATORS.get(place)).copied().ok_or(UNDEFINED_CODE)
}

/// An operand in use and in form, as the oracle takes it.
struct Side {
    checked: u32,
    terms: Vec<Term>,
    expression: CheckedExpr,
}

impl Side {
    fn read(tables: &Tables, Operand { checked, unit }: Operand) -> Result<Self, Refusal> {
        let terms = terms_or_none(unit, tables.names.len());
        let (ty, terms) = lowest(tables.checked(checked), terms)?;
        let unit = terms.as_ref().map(|terms| oracle_unit(terms, |symbol| name(tables, symbol)));
        let expression = CheckedExpr::new(ty, unit);
        Ok(Self { checked, terms: terms.unwrap_or_default(), expression })
    }
}

fn name(tables: &Tables, symbol: u8) -> String {
    tables.names[usize::from(symbol)].clone()
}

pub fn check_binary_operator(pages: Pages, op: u32, left: Operand, right: Operand) -> Outcome {
    let op = operator(op)?;
    let mut tables = Tables::read(pages.store, pages.names, pages.lent)?;
    let pairs = Pairs::read_in_use(pages.pairs, tables.names.len()).ok_or(BROKEN_TABLE)?;
    let (left, right) = lowest(Side::read(&tables, left), Side::read(&tables, right))?;

    let mut checker = TypeChecker::knowing(pairs.oracle(&tables.names));
    let answer = checker.check_binary_operator(&left.expression, &right.expression, &op, Span);
    let unit = result_bytes(&tables, answer.unit.as_ref(), &left.terms, &right.terms)?;
    let out = out_bytes(&tables, &checker, &[left.checked, right.checked], &unit);
    let given = answered(&mut tables, &answer.ty, pages.store)?;
    assert_eq!(given.page, pages.store, "no union is answered");
    Ok(Given { out, page: Vec::new(), ..given })
}

pub fn check_unary_operator(pages: Pages, op: u32, operand: Operand) -> Outcome {
    let op = operator(op)?;
    let mut tables = Tables::read(pages.store, pages.names, pages.lent)?;
    let side = Side::read(&tables, operand)?;

    let mut checker = TypeChecker::knowing(ConversionTable::default());
    let answer = checker.check_unary_operator(side.expression, Span, &op, Span);
    let unit = result_bytes(&tables, answer.unit.as_ref(), &side.terms, &[])?;
    let out = out_bytes(&tables, &checker, &[side.checked], &unit);
    Ok(Given { out, ..answered(&mut tables, &answer.ty, pages.store)? })
}

/// "The second where the target is a union"; "an index keeps its target's unit", which the
/// oracle's functions are not given.
pub fn check_index(pages: Pages, target: Operand, key: u32) -> Outcome {
    let mut tables = Tables::read(pages.store, pages.names, pages.lent)?;
    let (side, key) = lowest(Side::read(&tables, target), tables.checked(key))?;

    let mut checker = TypeChecker::knowing(ConversionTable::default());
    let answer = match &side.expression.ty {
        CheckType::Known(Type::Any(members) | Type::CAny(members)) => {
            checker.check_index_any(members.to_vec(), &key, Span, Span)
        }
        plain => checker.check_index_target(plain, &key, Span, Span),
    };
    let out = out_bytes(&tables, &checker, &[side.checked], target.unit);
    Ok(Given { out, ..answered(&mut tables, &answer, pages.store)? })
}

/// The type that is answered, entered in the store.
fn answered(tables: &mut Tables, ty: &CheckType, store: &[u8]) -> Outcome {
    match ty {
        CheckType::Known(tree) => tables.entered(tree),
        CheckType::Unknown => Ok(Given { value: ABSENT, page: store.to_vec(), ..Given::default() }),
        CheckType::Function { .. } => unreachable!("no Function is answered"),
    }
}

/// The bytes of the unit that the oracle answers of two.
fn result_bytes(
    tables: &Tables,
    unit: Option<&Unit>,
    left: &[Term],
    right: &[Term],
) -> Result<Vec<u8>, Refusal> {
    let Some(unit) = unit else {
        return Ok(NO_UNIT.to_vec());
    };
    let terms = result_terms(unit, left, right, |symbol| name(tables, symbol))?;
    Ok(unit_bytes(&terms))
}

/// The errors, the failing members of the operands, and the unit, as `out` has them.
fn out_bytes(tables: &Tables, checker: &TypeChecker, operands: &[u32], unit: &[u8]) -> Vec<u8> {
    let reasons: Vec<Reason> = checker.errors.iter().map(Reason::of).collect();
    let mut numbers: Vec<u8> = reasons.iter().map(|reason| reason.number).collect();
    assert!(numbers.len() <= 2, "at most two errors");
    numbers.resize(2, 0);
    let failing: usize = reasons.iter().map(|reason| reason.failing).sum();
    let mut first = [0; 2];
    let printed = reasons.iter().flat_map(|reason| &reason.first);
    for (place, (text, &operand)) in printed.zip(operands).enumerate() {
        first[place] = member(tables, operand, text);
    }

    let mut out = vec![reasons.len() as u8];
    out.extend(numbers);
    out.extend((failing as u32).to_be_bytes());
    out.extend(first.iter().flat_map(|number| number.to_be_bytes()));
    out.extend(unit);
    out
}

/// The operand itself, or the one among its children and theirs, that prints so: no two
/// types print alike.
fn member(tables: &Tables, operand: u32, text: &str) -> u16 {
    let children = |number: u16| tables.store.entry(number).children;
    let operand = operand as u16;
    let below = children(operand).into_iter().flat_map(|child| {
        let mut all = vec![child];
        all.extend(children(child));
        all
    });
    let prints_so = |number: &u16| format!("{:?}", tables.tree(*number)) == text;
    std::iter::once(operand).chain(below).find(prints_so).expect("a member of the operand")
}

/// Whether the oracle can be asked: it walks whole trees, however often a child is shared.
pub fn is_within_reach(question: &Question) -> bool {
    let Pages { store, names, lent, .. } = question.pages();
    let Ok(tables) = Tables::read(store, names, lent) else {
        return true;
    };
    let operands = question.numbers().skip(usize::from(question.call != Call::CheckIndex));
    let sizes: Vec<usize> = operands.map(|number| tables.nodes(number as u16)).collect();
    are_within_reach(&sizes, MAX_WORK)
}

#[cfg(test)]
mod tests {
    use super::*;
    use crate::call::Answer;
    use crate::expected::expected;
    use crate::inputs::answers::operands::{
        besides, operand, several, AND, BANG, EQUAL, IN, LESS, MINUS, MM, PLUS, S, SLASH, STAR,
    };
    use crate::inputs::answers::results::{answers_of_minus, different, source, target};
    use crate::inputs::types::shapes::{
        array, fixed, holding, of, over, stored, Shape, ANY, ARRAY, BOOL, BYTE, CALLBACK, CFLOAT,
        CINT, FLOAT, FN, INT, MAP, NULL, SET, STRING, TUPLE, UINT,
    };
    use crate::limits::{
        BROKEN_UNIT, EXPONENT_TOO_LARGE, FUNCTION, MAX_CHILDREN, MAX_SYMBOLS, NOT_IN_USE, NO_ROOM,
        TOO_MANY_SYMBOLS, UNKNOWN, WRONG_CHILD_COUNT,
    };

    /// The type that is answered, the reasons, the failing members and the unit.
    #[derive(Debug, PartialEq)]
    struct Seen {
        value: u32,
        reasons: Vec<u8>,
        failing: u32,
        first: [u16; 2],
        unit: Vec<u8>,
    }

    fn seen(answer: &Answer) -> Seen {
        assert_eq!(answer.refusal, 0);
        let out = &answer.out;
        let reasons = out[1..1 + usize::from(out[0])].to_vec();
        assert_eq!(out[1 + reasons.len()..3], [0, 0][reasons.len()..], "no reason, no number");
        let word = |place: usize| u16::from_be_bytes([out[place], out[place + 1]]);
        let length = if out[11] == 255 { 1 } else { 1 + 3 * usize::from(out[11]) };
        assert!(out[11 + length..].iter().all(|&byte| byte == 0));
        Seen {
            value: answer.value,
            reasons,
            failing: u32::from(word(3)) << 16 | u32::from(word(5)),
            first: [word(7), word(9)],
            unit: out[11..11 + length].to_vec(),
        }
    }

    fn passed(value: impl Into<u32>, unit: &[u8]) -> Seen {
        let (value, unit) = (value.into(), unit.to_vec());
        Seen { value, reasons: Vec::new(), failing: 0, first: [0, 0], unit }
    }

    fn failed(value: impl Into<u32>, reasons: &[u8]) -> Seen {
        Seen { reasons: reasons.to_vec(), ..passed(value, &NO_UNIT) }
    }

    /// The answer of a binary operator, where in and mm are a pair.
    fn binary(op: u32, left: (&Shape, &[u8]), right: (&Shape, &[u8])) -> (Answer, [u16; 2]) {
        let (store, [l, r]) = stored([left.0, right.0], 0);
        let (l_operand, r_operand) = (operand(l, left.1), operand(r, right.1));
        let besides = besides();
        let pages = besides[2].with(&store);
        let question = Question::check_binary_operator(pages, op, l_operand, r_operand);
        (expected(&question), [l, r])
    }

    fn of_kinds(op: u32, left: (u8, &[Term]), right: (u8, &[Term])) -> Seen {
        let [l, r] = [left, right].map(|(kind, terms)| (fixed(kind), unit_bytes(terms)));
        seen(&binary(op, (&l.0, &l.1), (&r.0, &r.1)).0)
    }

    fn unary(op: u32, shape: &Shape, unit: &[u8], room: usize) -> (Answer, u16) {
        let (store, [number]) = stored([shape], room);
        let pages = Pages { store: &store, names: b"", lent: false, pairs: b"" };
        let question = Question::check_unary_operator(pages, op, operand(number, unit));
        (expected(&question), number)
    }

    fn index(target: &Shape, key: &Shape, unit: &[u8], room: usize) -> (Answer, [u16; 2]) {
        let (store, [number, key]) = stored([target, key], room);
        let pages = Pages { store: &store, names: b"", lent: false, pairs: b"" };
        let question = Question::check_index(pages, operand(number, unit), key.into());
        (expected(&question), [number, key])
    }

    #[test]
    fn document_01s_binary_cases() {
        let (mm, s): (&[Term], &[Term]) = (&[(MM, 1)], &[(S, 1)]);
        assert_eq!(of_kinds(LESS, (UINT, mm), (UINT, s)), passed(BOOL, &NO_UNIT));
        assert_eq!(of_kinds(EQUAL, (UINT, mm), (UINT, s)), failed(BOOL, &[2]));
        assert_eq!(of_kinds(AND, (INT, &[]), (INT, &[])), failed(BOOL, &[3, 4]));
        assert_eq!(of_kinds(PLUS, (UINT, mm), (UINT, s)), failed(UINT, &[2]));
        assert_eq!(of_kinds(MINUS, (UINT, s), (UINT, mm)), failed(UINT, &[2]));
        let mm_bytes = unit_bytes(mm);
        assert_eq!(of_kinds(PLUS, (INT, mm), (CINT, &[])), passed(INT, &mm_bytes));
        assert_eq!(of_kinds(PLUS, (INT, &[]), (CINT, mm)), passed(INT, &mm_bytes));
        assert_eq!(of_kinds(MINUS, (FLOAT, mm), (FLOAT, &[(IN, 1)])), passed(FLOAT, &mm_bytes));
        assert_eq!(of_kinds(PLUS, (INT, &[]), (INT, &[])), passed(INT, &NO_UNIT));
        assert_eq!(of_kinds(STAR, (INT, &[]), (INT, &[])), passed(INT, &NO_UNIT));
        assert_eq!(of_kinds(SLASH, (BYTE, mm), (BYTE, mm)), passed(BYTE, &NO_UNIT));
        assert_eq!(of_kinds(PLUS, (BYTE, &[]), (INT, &[])), failed(ABSENT, &[1]));
        assert_eq!(of_kinds(BANG, (BOOL, &[]), (BOOL, &[])), failed(ABSENT, &[5]));
        assert_eq!(of_kinds(EQUAL, (STRING, mm), (STRING, s)), failed(BOOL, &[2]));
    }

    #[test]
    fn document_01s_unary_cases() {
        let mm = unit_bytes(&[(MM, 1)]);
        assert_eq!(seen(&unary(MINUS, &over(ANY, &[]), &mm, 0).0), failed(ABSENT, &[8]));
        let (answer, number) = unary(MINUS, &over(ANY, &[INT, FLOAT]), &mm, 0);
        assert_eq!(seen(&answer), passed(number, &NO_UNIT));
        let (answer, number) = unary(MINUS, &over(ANY, &[CINT, CFLOAT]), &mm, 6);
        assert_eq!(seen(&answer), passed(number + 1, &NO_UNIT));
        assert_eq!(seen(&unary(MINUS, &over(ANY, &[CINT, INT]), &mm, 0).0), passed(INT, &mm));
        assert_eq!(seen(&unary(MINUS, &fixed(CINT), &[0], 0).0), passed(INT, &[0]));
        assert_eq!(seen(&unary(MINUS, &fixed(UINT), &mm, 0).0), failed(ABSENT, &[6]));
        assert_eq!(seen(&unary(MINUS, &fixed(BYTE), &mm, 0).0), failed(ABSENT, &[1]));
        assert_eq!(seen(&unary(PLUS, &fixed(INT), &mm, 0).0), failed(ABSENT, &[5]));
        assert_eq!(seen(&unary(PLUS, &over(ANY, &[]), &mm, 0).0), failed(ABSENT, &[8]));
        assert_eq!(seen(&unary(BANG, &fixed(BOOL), &mm, 0).0), passed(BOOL, &NO_UNIT));
    }

    #[test]
    fn document_01s_indexes() {
        let mm = unit_bytes(&[(MM, 1)]);
        let asked = |target: &Shape, key: u8| seen(&index(target, &fixed(key), &mm, 0).0);
        let with_mm = |seen: Seen| Seen { unit: mm.clone(), ..seen };
        assert_eq!(asked(&fixed(NULL), INT), passed(ABSENT, &mm));
        assert_eq!(asked(&over(TUPLE, &[INT]), INT), passed(ABSENT, &mm));
        assert_eq!(asked(&over(ARRAY, &[BOOL]), STRING), passed(BOOL, &mm));
        assert_eq!(asked(&over(MAP, &[INT, BOOL]), STRING), with_mm(failed(BOOL, &[9])));
        assert_eq!(asked(&fixed(FN), INT), with_mm(failed(ABSENT, &[10])));
        assert_eq!(asked(&over(ANY, &[]), INT), with_mm(failed(ABSENT, &[8])));
    }

    #[test]
    fn failing_members_are_counted_from_the_first() {
        let union = over(ANY, &[INT, BOOL, STRING]);
        let (answer, _) = binary(PLUS, (&fixed(CINT), &[0]), (&union, &[0]));
        let first = [CINT.into(), BOOL.into()];
        assert_eq!(seen(&answer), Seen { failing: 2, first, ..failed(ABSENT, &[7]) });
        let first = [BOOL.into(), 0];
        let some = Seen { failing: 2, first, ..failed(ABSENT, &[7]) };
        assert_eq!(seen(&unary(MINUS, &union, &NO_UNIT, 0).0), some);
        // A member still a union fails, and so does one that is indexed to Unknown.
        let arrays = over(ANY, &[INT]);
        let target = of(ANY, &[over(ARRAY, &[INT]), holding(ANY, &arrays), over(TUPLE, &[])]);
        let (answer, [number, _]) = index(&target, &fixed(INT), &NO_UNIT, 0);
        let first = [number - 3, 0];
        assert_eq!(seen(&answer), Seen { failing: 2, first, ..failed(ABSENT, &[7]) });
    }

    #[test]
    fn unknown_and_functions_as_operands() {
        let (store, [f]) = stored([&over(CALLBACK, &[INT])], 0);
        let pages = &besides()[0];
        let pages = pages.with(&store);
        let ask = |op: u32, left: u32, right: u32| {
            let [left, right] = [left, right].map(|checked| operand(checked, &[0]));
            seen(&expected(&Question::check_binary_operator(pages, op, left, right)))
        };
        let function = FUNCTION + u32::from(f);
        assert_eq!(ask(BANG, UNKNOWN, INT.into()), passed(ABSENT, &NO_UNIT));
        assert_eq!(ask(PLUS, function, function), failed(ABSENT, &[1]));
        assert_eq!(ask(AND, function, BOOL.into()), failed(BOOL, &[3]));
    }

    #[test]
    fn only_the_final_answer_meets_the_limits() {
        let (m_1000, m) = (unit_bytes(&[(MM, 1000)]), unit_bytes(&[(MM, 1)]));
        let refusal = |left: &Shape, unit: &[u8], right: &[u8]| {
            binary(STAR, (left, unit), (&fixed(INT), right)).0.refusal
        };
        assert_eq!(refusal(&over(ANY, &[INT]), &m_1000, &m), EXPONENT_TOO_LARGE);
        assert_eq!(refusal(&over(ANY, &[INT, FLOAT]), &m_1000, &m), 0);
        let eight = unit_bytes(&several(0, MAX_SYMBOLS));
        let ninth = unit_bytes(&[(8, 1)]);
        assert_eq!(refusal(&fixed(INT), &eight, &ninth), TOO_MANY_SYMBOLS);
        assert_eq!(refusal(&fixed(BOOL), &eight, &ninth), 0);
    }

    #[test]
    fn unions_are_entered_inner_ones_first() {
        for answer in answers_of_minus() {
            let (given, _) = unary(MINUS, &source(&answer), &NO_UNIT, 10_000);
            if given.refusal == 0 {
                let tables = Tables::read(&given.page, b"", false).expect("in form");
                let (store, [number]) = stored([&answer], 0);
                let known = Tables::read(&store, b"", false).expect("in form");
                assert_eq!(tables.tree(given.value as u16), known.tree(number));
            } else {
                assert_eq!(given.refusal, WRONG_CHILD_COUNT);
            }
        }
        assert_eq!(different(18).len(), 18);
        let wide = of(ANY, &different(MAX_CHILDREN + 1));
        let answer = of(ANY, &[over(ANY, &[FLOAT, INT]), wide.clone()]);
        assert_eq!(unary(MINUS, &source(&answer), &NO_UNIT, 2_000).0.refusal, WRONG_CHILD_COUNT);
        let refusal = |first: u8, room: usize| {
            let union = over(ANY, &[first, FLOAT]);
            let answer = of(ANY, &[source(&union), holding(ANY, &union)]);
            unary(MINUS, &answer, &NO_UNIT, room).0.refusal
        };
        assert_eq!((refusal(INT, 0), refusal(CINT, 0), refusal(CINT, 6)), (0, NO_ROOM, 0));
    }

    #[test]
    fn a_wide_index_is_refused_before_there_is_no_room() {
        let refusal = |count: usize, room: usize| index(&target(count), &fixed(INT), &[0], room);
        assert_eq!(refusal(16, 34).0.refusal, 0);
        assert_eq!(refusal(16, 33).0.refusal, NO_ROOM);
        assert_eq!(refusal(17, 0).0.refusal, WRONG_CHILD_COUNT);
        let (answer, [number, _]) = refusal(2, 6);
        assert_eq!(seen(&answer), passed(number + 1, &[0]));
        let known = of(ANY, &[array(fixed(INT)), holding(SET, &fixed(INT))]);
        assert_eq!(seen(&index(&known, &fixed(INT), &[0], 0).0), passed(INT, &[0]));
    }

    #[test]
    fn the_lowest_refusal_comes_first() {
        let (store, [array]) = stored([&over(ARRAY, &[INT])], 0);
        let besides = besides();
        let mut nine = several(0, MAX_SYMBOLS + 1);
        nine[MAX_SYMBOLS].0 = 99;
        let nine = unit_bytes(&nine);
        let ask = |op: u32, pairs: &[u8], left: Operand, right: Operand| {
            let pages = Pages { pairs, ..besides[0].with(&store) };
            expected(&Question::check_binary_operator(pages, op, left, right)).refusal
        };
        let (good, unused) = (operand(INT, &[0]), operand(array + 1, &[0]));
        let (broken, symbol) = (operand(INT, &[9]), operand(INT, &[1, 99, 0, 0]));
        let (ninth, cut) = (operand(INT, &nine), operand(INT, &[3, 0, 0, 1, 99]));
        let pairs = &besides[0].pairs;
        assert_eq!(ask(14, b"", unused, broken), UNDEFINED_CODE);
        assert_eq!(ask(PLUS, b"", unused, broken), BROKEN_TABLE);
        assert_eq!(ask(PLUS, pairs, broken, unused), NOT_IN_USE);
        for unused in [symbol, ninth, cut] {
            assert_eq!(ask(14, pairs, unused, broken), UNDEFINED_CODE);
            assert_eq!(ask(PLUS, b"", broken, unused), BROKEN_TABLE);
            assert_eq!(ask(PLUS, pairs, broken, unused), NOT_IN_USE);
            assert_eq!(ask(PLUS, pairs, unused, broken), NOT_IN_USE);
        }
        assert_eq!(ask(PLUS, pairs, broken, good), BROKEN_UNIT);
        let beside = besides[0].with(&store);
        let asked = expected(&Question::check_index(beside, broken, 99));
        assert_eq!(asked.refusal, NOT_IN_USE);
    }
}
