//! Operators and indexes over unions whose members are shared, and in a full store.

use crate::types::nested;
use crate::{timed, PAGE_BYTES};
use compare::exports::{
    riddlepoppy_check_binary_operator, riddlepoppy_check_index, riddlepoppy_check_unary_operator,
};
use compare::inputs::answers::operands::{MINUS, PLUS};
use compare::inputs::pairs::page_of as pairs_page;
use compare::inputs::types::many;
use compare::inputs::types::shapes::{ANY, CINT, FLOAT, INT, MAP, NULL, TUPLE};
use compare::limits::{
    ABSENT, ANSWER_BYTES, FIXED_TYPES, MAX_CHILDREN, MAX_DEPTH, MAX_ENTRIES, MAX_NAMES, NO_UNIT,
};
use compare::types::store::{page_of, Entry, Store};
use compare::types::trees::tree;
use oracle::structs::{CheckType, CheckedExpr, TypeChecker};
use oracle::units::ConversionTable;
use rl_ast::statements::TypeAnnotation as Type;
use rl_lexer::tokentypes::TokenType;
use rl_utils::span::Span;
use std::hint::black_box;
use std::ptr::dangling;

/// How often a call is timed.
const CALLS: u32 = 10;

/// The deepest nesting of unions: a leaf stands below them.
const DEEPEST: usize = MAX_DEPTH - 1;

pub fn measure() {
    for levels in [2, 3] {
        shared_sum(levels, CINT, true);
        shared_sum(levels, FLOAT, true);
    }
    shared_sum(DEEPEST, CINT, false);
    shared_sum(DEEPEST, FLOAT, false);
    for levels in [4, 5] {
        shared_negation(levels, true);
    }
    shared_negation(DEEPEST, false);
    full_store();
    for levels in [2, 3] {
        wide_index(levels, true);
    }
    wide_index(DEEPEST - 3, false);
}

pub fn print(what: &str, ours: f64, rust: Option<f64>) {
    let rust = rust.map_or(String::new(), |rust| format!(", the Rust {:.1} µs", rust / 1e3));
    println!("{what}: {:.1} µs{rust}", ours / 1e3);
}

/// A store, and what the calls are given beside it: no units, names or pairs.
struct Calls {
    page: Vec<u8>,
    pairs: Vec<u8>,
    out: [u8; ANSWER_BYTES],
}

impl Calls {
    fn new(entries: &[Entry]) -> Self {
        let page = page_of(entries, PAGE_BYTES);
        Self { page, pairs: pairs_page(&[], 0), out: [0; ANSWER_BYTES] }
    }

    /// The Rust's trees of these types.
    fn trees<const N: usize>(&self, numbers: [u32; N]) -> [Type; N] {
        let store = Store::read(&self.page, MAX_NAMES).expect("in form");
        numbers.map(|number| tree(&store, &[], number as u16))
    }

    /// Nanoseconds for a sum, which must answer this type.
    fn sum(&mut self, left: u32, right: u32, answer: u32) -> f64 {
        let (p, n) = (self.page.as_ptr(), self.page.len());
        let (c, k) = (self.pairs.as_ptr(), self.pairs.len());
        let (u, l, out) = (NO_UNIT.as_ptr(), NO_UNIT.len(), self.out.as_mut_ptr());
        // SAFETY: each pointer goes with its length, and `out` has the length that is written.
        timed(CALLS, || unsafe {
            let code = riddlepoppy_check_binary_operator(
                p,
                n,
                dangling(),
                0,
                false,
                c,
                k,
                PLUS,
                left,
                u,
                l,
                right,
                u,
                l,
                out,
            );
            assert_eq!(code, answer, "the sum");
        })
    }

    /// The same of a negation.
    fn negation(&mut self, operand: u32, answer: u32) -> f64 {
        let (p, n) = (self.page.as_mut_ptr(), self.page.len());
        let (u, l, out) = (NO_UNIT.as_ptr(), NO_UNIT.len(), self.out.as_mut_ptr());
        // SAFETY: as above.
        timed(CALLS, || unsafe {
            let code = riddlepoppy_check_unary_operator(
                p,
                n,
                dangling(),
                0,
                false,
                MINUS,
                operand,
                u,
                l,
                out,
            );
            assert_eq!(code, answer, "the negation");
        })
    }

    /// The same of an index.
    fn index(&mut self, target: u32, key: u32, answer: u32) -> f64 {
        let (p, n) = (self.page.as_mut_ptr(), self.page.len());
        let (u, l, out) = (NO_UNIT.as_ptr(), NO_UNIT.len(), self.out.as_mut_ptr());
        // SAFETY: as above.
        timed(CALLS, || unsafe {
            let code = riddlepoppy_check_index(p, n, dangling(), 0, false, target, u, l, key, out);
            assert_eq!(code, answer, "the index");
        })
    }
}

fn checker() -> TypeChecker {
    TypeChecker::knowing(ConversionTable::default())
}

fn known(ty: Type) -> CheckedExpr {
    CheckedExpr::new(CheckType::Known(ty), None)
}

// ---- Shared members ----

/// Unions of sixteen members over Int, nested, with such over another kind: every pair of
/// members passes, or every one fails.
fn shared_sum(levels: usize, kind: u8, with_rust: bool) {
    let mut entries = Vec::new();
    let [left, right] = [INT, kind].map(|leaf| nested(&mut entries, ANY, leaf.into(), levels));
    let passes = kind == CINT;
    let mut calls = Calls::new(&entries);
    let ours = calls.sum(left, right, if passes { INT.into() } else { ABSENT });
    let rust = with_rust.then(|| {
        let [left, right] = calls.trees([left, right]).map(known);
        let mut checker = checker();
        let time = timed(1, || {
            let right = black_box(&right);
            black_box(checker.check_binary_operator(&left, right, &TokenType::Plus, Span));
        });
        assert_eq!(checker.errors.is_empty(), passes);
        time
    });
    let what = if passes { "passes" } else { "fails" };
    print(&format!("+ on two unions of sixteen members, {levels} levels, {what}"), ours, rust);
}

/// A union of Int and Float below unions of sixteen such.
fn shared_negation(levels: usize, with_rust: bool) {
    let mut entries = vec![Entry::of(ANY, &[INT.into(), FLOAT.into()])];
    let numbers = FIXED_TYPES as u16;
    let operand = nested(&mut entries, ANY, numbers, levels - 1);
    let mut calls = Calls::new(&entries);
    let ours = calls.negation(operand, numbers.into());
    let rust = with_rust.then(|| {
        let [operand, numbers] = calls.trees([operand, numbers.into()]).map(known);
        let mut checker = checker();
        timed(1, || {
            let operand = black_box(operand.clone());
            let answer = checker.check_unary_operator(operand, Span, &TokenType::Minus, Span);
            assert_eq!(answer, numbers);
        })
    });
    print(&format!("- on a union of sixteen members, {levels} levels"), ours, rust);
}

// ---- A full store ----

/// 4,077 types, most of them unions in layers, each of sixteen members of the layer below;
/// and the number of the last union.
pub fn layers() -> (Vec<Entry>, u32) {
    let width = MAX_ENTRIES / DEEPEST;
    let mut entries = Vec::new();
    for layer in 0..DEEPEST {
        for place in 0..width {
            let member = |step: usize| match layer {
                0 => [INT, CINT][place >> (step % 8) & 1].into(),
                _ => (FIXED_TYPES + (layer - 1) * width + (place * 7 + step) % width) as u16,
            };
            entries.push(Entry::of(ANY, &(0..MAX_CHILDREN).map(member).collect::<Vec<_>>()));
        }
    }
    let last = FIXED_TYPES + entries.len() - 1;
    entries.extend(many(MAX_ENTRIES - entries.len()));
    (entries, last as u32)
}

fn full_store() {
    let (entries, last) = layers();
    let mut calls = Calls::new(&entries);
    let sum = calls.sum(last, last - 1, INT.into());
    print("+ on two unions of 31 levels, 4,096 types in 65,536 bytes", sum, None);
    let sum = calls.sum(INT.into(), INT.into(), INT.into());
    print("+ on two of Int there", sum, None);
    print("- on one of the unions", calls.negation(last, INT.into()), None);
    print("an index into it, which fails", calls.index(last, INT.into(), ABSENT), None);
}

// ---- Indexes ----

/// A union of sixteen unions of sixteen maps, whose keys are tuples nested so deep, indexed
/// by such a tuple: every leaf of each key is looked at, and passes.
fn wide_index(levels: usize, with_rust: bool) {
    let mut entries = Vec::new();
    let expected = nested(&mut entries, TUPLE, INT.into(), levels) as u16;
    let key = nested(&mut entries, TUPLE, NULL.into(), levels);
    let sixteen = 0..MAX_CHILDREN as u16;
    let maps = (FIXED_TYPES + entries.len()) as u16;
    entries.extend(sixteen.clone().map(|value| Entry::of(MAP, &[expected, value])));
    let parts = maps + sixteen.end;
    for part in sixteen.clone() {
        // The same maps in another order.
        let members = sixteen.clone().map(|step| maps + (part + step) % sixteen.end);
        entries.push(Entry::of(ANY, &members.collect::<Vec<_>>()));
    }
    entries.push(Entry::of(ANY, &sixteen.map(|part| parts + part).collect::<Vec<_>>()));
    let target = (FIXED_TYPES + entries.len() - 1) as u32;
    let mut calls = Calls::new(&entries);
    // The first call enters the union of the values, and the others find it.
    let ours = calls.index(target, key, target + 1);
    let rust = with_rust.then(|| {
        let [target, key] = calls.trees([target, key]);
        let Type::Any(members) = target else { unreachable!("a union") };
        let (mut checker, key) = (checker(), CheckType::Known(key));
        timed(1, || {
            let members = black_box(members.to_vec());
            black_box(checker.check_index_any(members, &key, Span, Span));
            assert!(checker.errors.is_empty());
        })
    });
    print(&format!("an index into a union of 256 maps, keys of {levels} levels"), ours, rust);
}
