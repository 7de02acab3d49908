//! Pairs of formulas that miss one hypothesis of demand 3, or two, and of which the claim is
//! false: what each hypothesis is there for.

use super::composed::Composed;
use super::statement::{missed, Hypothesis, Statement};
use super::{Case, Formula, Written, AND, BANG, MINUS, PLUS, SLASH, STAR};
use crate::call::{Answer, Question};
use crate::expected::expected;
use crate::inputs::pairs::page_of;
use crate::inputs::types::shapes::{fixed, over, stored, Shape, ANY, ARRAY, BOOL, INT, NULL};
use crate::limits::NO_UNIT;

const MM: &[u8] = &[1, 0, 0, 1];
const S: &[u8] = &[1, 1, 0, 1];

fn value(ty: impl Into<u16>, unit: &[u8]) -> Written<'_> {
    Written::Value { ty: ty.into(), unit }
}

fn negation(operand: u8) -> Written<'static> {
    Written::Unary { op: MINUS, operand }
}

fn binary(op: u8, left: u8, right: u8) -> Written<'static> {
    Written::Binary { op, left, right }
}

/// The list with its last node as the root.
fn formula(nodes: &[Written]) -> Formula {
    let bytes = nodes.iter().flat_map(|node| node.bytes(0)).collect();
    Formula { nodes: bytes, root: nodes.len() as u32 - 1 }
}

/// Two formulas over a store of this type and a table without pairs; the type has number 19
/// where it is none of the fixed ones.
fn case(shape: &Shape, left: &[Written], right: &[Written]) -> Case {
    let (store, _) = stored([shape], 100);
    Case {
        store,
        names: Vec::new(),
        lent: false,
        pairs: page_of(&[], 0),
        requests: Vec::new(),
        left: formula(left),
        right: formula(right),
    }
}

fn ask(question: &Question) -> Result<Answer, String> {
    Ok(expected(question))
}

/// What the left formula and the right one miss, and the claim: what the call says, and
/// whether that is so of every pair of routes.
fn told(case: &Case) -> ([Vec<Hypothesis>; 2], bool, bool) {
    let run = Composed(ask).run(case).expect("no refusal");
    let missing = [missed(&case.left, &run.left), missed(&case.right, &run.right)];
    let judged = Statement::default().judge(case, run.convertible).expect("few routes");
    assert!(judged.same + judged.different > 0, "a route down each");
    (missing, run.convertible, judged.wrong.is_none())
}

const INT_TYPE: u16 = INT as u16;
const STORED: u16 = 19;

#[test]
fn with_all_hypotheses_the_claim_holds() {
    // (mm + mm) / s against mm / s, and against mm.
    let sum = [
        value(INT_TYPE, MM),
        value(INT_TYPE, MM),
        binary(PLUS, 0, 1),
        value(INT_TYPE, S),
        binary(SLASH, 2, 3),
    ];
    let speed = [value(INT_TYPE, MM), value(INT_TYPE, S), binary(SLASH, 0, 1)];
    let none = [Vec::new(), Vec::new()];
    assert_eq!(told(&case(&fixed(INT), &sum, &speed)), (none.clone(), true, true));
    let mm = [value(INT_TYPE, MM)];
    assert_eq!(told(&case(&fixed(INT), &sum, &mm)), (none, false, true));
}

/// mm + 1 has mm's unit; the route to the 1 has no exponent.
#[test]
fn one_unitless_side() {
    let sum = [value(INT_TYPE, MM), value(INT_TYPE, &NO_UNIT), binary(PLUS, 0, 1)];
    let mm = [value(INT_TYPE, MM)];
    let missing = [vec![Hypothesis::Sides], Vec::new()];
    assert_eq!(told(&case(&fixed(INT), &sum, &mm)), (missing.clone(), true, false));
    // So does a difference, and with the empty unit.
    let difference = [value(INT_TYPE, &[0]), value(INT_TYPE, MM), binary(MINUS, 0, 1)];
    assert_eq!(told(&case(&fixed(INT), &difference, &mm)), (missing, true, false));
}

/// mm + s answers Int and no unit, with an error.
#[test]
fn a_formula_that_does_not_pass() {
    let sum = [value(INT_TYPE, MM), value(INT_TYPE, S), binary(PLUS, 0, 1)];
    let one = [value(INT_TYPE, &NO_UNIT)];
    let missing = [vec![Hypothesis::Passes], Vec::new()];
    assert_eq!(told(&case(&fixed(INT), &sum, &one)), (missing, true, false));
}

/// Null indexes to Unknown with its unit, mm; the negation of Unknown is Unknown without one.
#[test]
fn a_result_that_is_no_number() {
    let nodes = [
        value(NULL, MM),
        value(INT_TYPE, &NO_UNIT),
        Written::Index { target: 0, key: 1 },
        negation(2),
    ];
    let one = [value(INT_TYPE, &NO_UNIT)];
    let missing = [vec![Hypothesis::Number], Vec::new()];
    assert_eq!(told(&case(&fixed(INT), &nodes, &one)), (missing, true, false));
    // A product with Unknown drops the units of both sides.
    let product = [
        value(NULL, &NO_UNIT),
        Written::Index { target: 0, key: 0 },
        value(INT_TYPE, MM),
        binary(STAR, 1, 2),
    ];
    let missing = [vec![Hypothesis::Number], Vec::new()];
    assert_eq!(told(&case(&fixed(INT), &product, &one)), (missing, true, false));
}

/// The negation of Any(Int, Float) drops mm. Its result is that union, so that two hypotheses
/// are missed, and not one.
#[test]
fn a_union_negated_is_no_number() {
    let nodes = [value(STORED, MM), negation(0)];
    let one = [value(INT_TYPE, &NO_UNIT)];
    let missing = [vec![Hypothesis::Number, Hypothesis::NoUnion], Vec::new()];
    let floats = over(ANY, &[INT, 5]);
    assert_eq!(told(&case(&floats, &nodes, &one)), (missing, true, false));
}

/// Of unions alone nothing false follows where a number results. A negation drops a unit just
/// where its answer is a union, and that union then has members of two families: equal results
/// merge, and − answers Int or Float. No operator takes both families, so that above it on a
/// route only further negations and indexes pass; the former answer such unions again, the
/// latter fail. Beside routes, in keys, a union changes no unit.
#[test]
fn unions_that_come_to_a_number() {
    let none = [value(INT_TYPE, MM)];
    let union = [vec![Hypothesis::NoUnion], Vec::new()];
    let ints = over(ANY, &[INT, 2]);
    let negated = [value(STORED, MM), negation(0)];
    assert_eq!(told(&case(&ints, &negated, &none)), (union.clone(), true, true));
    let sum = [value(STORED, MM), value(STORED, MM), binary(MINUS, 0, 1)];
    assert_eq!(told(&case(&ints, &sum, &none)), (union.clone(), true, true));
    let floats = over(ANY, &[INT, 5]);
    // The dropped unit in a product: no operator takes it.
    let product = [value(STORED, MM), negation(0), value(INT_TYPE, S), binary(STAR, 1, 2)];
    let one = [value(INT_TYPE, S)];
    let failing = vec![Hypothesis::Passes, Hypothesis::Number, Hypothesis::NoUnion];
    let (missing, _, _) = told(&case(&floats, &product, &one));
    assert_eq!(missing, [failing, Vec::new()]);
}

/// A comparison and a negation by ! answer no number; no route goes down them.
#[test]
fn no_route_goes_through_a_truth() {
    let truth = [value(BOOL, MM), Written::Unary { op: BANG, operand: 0 }, binary(AND, 0, 1)];
    assert_eq!(Statement::default().routes(&formula(&truth)), Some(Vec::new()));
    // A target does pass its unit on, and a key does not.
    let nodes = [value(STORED, MM), value(INT_TYPE, S), Written::Index { target: 0, key: 1 }];
    let none = [Vec::new(), Vec::new()];
    let array = over(ARRAY, &[INT]);
    assert_eq!(told(&case(&array, &nodes, &[value(INT_TYPE, MM)])), (none.clone(), true, true));
    assert_eq!(told(&case(&array, &nodes, &[value(INT_TYPE, S)])), (none, false, true));
}
