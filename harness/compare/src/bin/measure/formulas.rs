//! Whole formulas, and two of them compared behind a list of insertions.

use crate::answers::{layers, print};
use crate::types::nested;
use crate::{name, timed, PAGE_BYTES};
use compare::exports::{riddlepoppy_check_formula, riddlepoppy_compare_formulas};
use compare::formulas::{Formula, Written, FORMULA_BYTES, MAX_NODES, PLUS};
use compare::inputs::pairs::page_of as pairs_page;
use compare::inputs::types::many;
use compare::inputs::types::shapes::{CINT, INT, MAP, NULL, TUPLE, UINT};
use compare::limits::{FIXED_TYPES, MAX_ENTRIES, MAX_NAMES, MAX_PAIRS, NO_UNIT};
use compare::types::store::{page_of, Entry};
use compare::units::oracle_unit;
use oracle::structs::{CheckType, CheckedExpr, TypeChecker};
use oracle::units::ConversionTable;
use rl_ast::statements::TypeAnnotation as Type;
use rl_lexer::tokentypes::TokenType;
use rl_utils::span::Span;
use std::hint::black_box;
use std::ptr::dangling;

/// How often a call is timed.
const CALLS: u32 = 20;

/// How deep keys are nested.
const KEY_LEVELS: usize = 15;

/// The first symbol, once.
const MM: [u8; 4] = [1, 0, 0, 1];

pub fn measure() {
    let sums = tree_of_sums();
    let few = checked(&[], &sums);
    print("255 nodes, a tree of sums of Int mm", few, Some(rust_sums()));
    print("one node", checked(&[], &formula(&[value(INT.into(), &MM)])), None);
    let (entries, last) = layers();
    let there = checked(&entries, &formula(&[value(INT.into(), &MM)]));
    print("one node, 4,096 types in 65,536 bytes, most of them nested unions", there, None);
    print("the tree there", checked(&entries, &sums), None);
    let unions = checked(&entries, &sums_of_unions(last as u16));
    print("254 sums of two unions of 31 levels there", unions, None);
    let (entries, indexes) = indexes_by_deep_keys();
    print("252 indexes by tuples of 15 levels, 4,096 types", checked(&entries, &indexes), None);
    print("512 insertions, two trees of sums compared", compared(&sums), None);
}

fn value(ty: u16, unit: &[u8]) -> Written<'_> {
    Written::Value { ty, unit }
}

/// The list with its last node as the root.
fn formula(nodes: &[Written]) -> Formula {
    let bytes = nodes.iter().flat_map(|node| node.bytes(0)).collect();
    Formula { nodes: bytes, root: nodes.len() as u32 - 1 }
}

/// 128 values, and the 127 sums of a tree over them.
fn tree_of_sums() -> Formula {
    let mut nodes = vec![value(INT.into(), &MM); MAX_NODES / 2];
    for sum in 0..MAX_NODES / 2 - 1 {
        nodes.push(Written::Binary { op: PLUS, left: 2 * sum as u8, right: 2 * sum as u8 + 1 });
    }
    formula(&nodes)
}

/// Two values of types made to take long, and sums of the two.
fn sums_of_unions(last: u16) -> Formula {
    let mut nodes = vec![value(last, &NO_UNIT), value(last - 1, &NO_UNIT)];
    nodes.resize(MAX_NODES, Written::Binary { op: PLUS, left: 0, right: 1 });
    formula(&nodes)
}

/// A full store, and a map of it indexed by three keys by turns: tuples of sixteen equal children
/// nested so deep, as the map's own key is.
fn indexes_by_deep_keys() -> (Vec<Entry>, Formula) {
    let mut entries = Vec::new();
    let [expected, keys @ ..] = [INT, NULL, UINT, CINT]
        .map(|leaf| nested(&mut entries, TUPLE, leaf.into(), KEY_LEVELS) as u16);
    let map = (FIXED_TYPES + entries.len()) as u16;
    entries.push(Entry::of(MAP, &[expected, INT.into()]));
    entries.extend(many(MAX_ENTRIES - entries.len()));
    let mut nodes = vec![value(map, &MM)];
    nodes.extend(keys.map(|key| value(key, &NO_UNIT)));
    let index = |step| Written::Index { target: 0, key: 1 + (step % keys.len()) as u8 };
    nodes.extend((nodes.len()..MAX_NODES).map(index));
    (entries, formula(&nodes))
}

/// Nanoseconds for a formula over such a store.
fn checked(entries: &[Entry], formula: &Formula) -> f64 {
    let mut page = page_of(entries, PAGE_BYTES);
    let (pairs, mut out) = (pairs_page(&[], 0), [0; FORMULA_BYTES]);
    let (p, n) = (page.as_mut_ptr(), page.len());
    let (c, k) = (pairs.as_ptr(), pairs.len());
    let (f, l) = (formula.nodes.as_ptr(), formula.nodes.len());
    // SAFETY: each pointer goes with its length, and `out` has the length that is written.
    timed(CALLS, || unsafe {
        let (root, out) = (formula.root, out.as_mut_ptr());
        let code = riddlepoppy_check_formula(p, n, dangling(), 0, false, c, k, f, l, root, out);
        assert_eq!(code >> 16, 0, "no refusal");
    })
}

/// The Rust's time for the tree of sums.
fn rust_sums() -> f64 {
    let unit = || oracle_unit(&[(0, 1)], name);
    timed(CALLS, || {
        let mut checker = TypeChecker::knowing(ConversionTable::default());
        let value = |_| CheckedExpr::new(CheckType::Known(Type::Int), Some(unit()));
        let mut nodes: Vec<_> = (0..MAX_NODES / 2).map(value).collect();
        for sum in 0..MAX_NODES / 2 - 1 {
            let (left, right) = (&nodes[2 * sum], &nodes[2 * sum + 1]);
            let answer = checker.check_binary_operator(left, right, &TokenType::Plus, Span);
            nodes.push(answer);
        }
        assert!(checker.errors.is_empty());
        black_box(nodes);
    })
}

/// Nanoseconds for the comparison of a formula with itself, over a table that the pairs of a
/// chain enter first, as often as there is room.
fn compared(formula: &Formula) -> f64 {
    let mut page = page_of(&[], PAGE_BYTES);
    let empty = pairs_page(&[], PAGE_BYTES);
    let chain = (0..MAX_PAIRS).map(|k| (k % (MAX_NAMES - 1)) as u8);
    let requests: Vec<u8> = chain
        .flat_map(|symbol| [&[symbol + 1, symbol][..], &1f64.to_be_bytes()].concat())
        .collect();
    let (p, n) = (page.as_mut_ptr(), page.len());
    let (q, j) = (requests.as_ptr(), requests.len());
    let (f, l) = (formula.nodes.as_ptr(), formula.nodes.len());
    // SAFETY: as above; the table is a copy in each call.
    timed(CALLS, || unsafe {
        let mut pairs = empty.clone();
        let (c, k, root) = (pairs.as_mut_ptr(), pairs.len(), formula.root);
        let code = riddlepoppy_compare_formulas(
            p,
            n,
            dangling(),
            0,
            false,
            c,
            k,
            q,
            j,
            f,
            l,
            root,
            f,
            l,
            root,
        );
        assert_eq!(code, 1, "convertible");
    })
}
