//! A full store of types, and types whose children are shared.

use crate::{timed, PAGE_BYTES};
use compare::exports::{
    riddlepoppy_has_generic, riddlepoppy_make_type, riddlepoppy_matches, riddlepoppy_read_type,
    riddlepoppy_substitute, riddlepoppy_unify,
};
use compare::inputs::types::shapes::{bindings, A, ANY, GENERIC, INT, NULL, TUPLE};
use compare::limits::{FIXED_TYPES, MAX_CHILDREN, MAX_DEPTH, MAX_ENTRIES, MAX_NAMES, TYPE_BYTES};
use compare::types::store::{page_of, Entry, Store};
use compare::types::trees::tree;
use oracle::structs::CheckType;
use oracle::types::unify;
use rl_ast::statements::TypeAnnotation as Type;
use std::collections::HashMap;
use std::hint::black_box;
use std::ptr::dangling;
use std::rc::Rc;

/// How often a call on a full store is timed.
const FULL_CALLS: u32 = 10;

/// And a call on shared types.
const SHARED_CALLS: u32 = 100;

pub fn measure() {
    full_store();
    shared_generic();
    for depth in [4, 5, 6] {
        shared_matches(depth, true);
        shared_unify(depth, true);
        shared_unions(depth, true);
    }
    shared_matches(30, false);
    shared_unify(30, false);
    shared_unions(30, false);
}

// ---- A full store ----

/// 4,077 tuples of three fixed types each.
pub fn tuples() -> Vec<Entry> {
    let kinds = 0..FIXED_TYPES as u16;
    let triples = kinds.clone().flat_map(|a| {
        let kinds = kinds.clone();
        kinds.clone().flat_map(move |b| kinds.clone().map(move |c| [a, b, c]))
    });
    triples.map(|children| Entry::of(TUPLE, &children)).take(MAX_ENTRIES).collect()
}

/// A call that tests the form of a full store and looks for an equal type, or reads one.
fn full_store() {
    let entries = tuples();
    let mut page = page_of(&entries, PAGE_BYTES);
    let last = (FIXED_TYPES + MAX_ENTRIES - 1) as u32;
    let Entry { kind, children, name } = &entries[MAX_ENTRIES - 1];
    let (p, n, c, l) = (page.as_mut_ptr(), page.len(), children.as_ptr(), children.len());
    let mut out = [0; TYPE_BYTES];
    // SAFETY: each pointer goes with its length, and `out` has the length that is written.
    let made = timed(FULL_CALLS, || unsafe {
        let code = riddlepoppy_make_type(p, n, dangling(), 0, false, *kind, c, l, (*name).into());
        assert_eq!(code, last, "the last type is found");
    });
    let read = timed(FULL_CALLS, || unsafe {
        let code = riddlepoppy_read_type(p, n, dangling(), 0, false, last, out.as_mut_ptr());
        assert_eq!(code, 0, "the last type is read");
    });

    let store = Store::read(&page, MAX_NAMES).expect("in form");
    let trees: Vec<Type> =
        (FIXED_TYPES as u16..=last as u16).map(|number| tree(&store, &[], number)).collect();
    let rust_form = timed(FULL_CALLS, || assert!(black_box(all_differ(&trees))));
    let rust_found = timed(FULL_CALLS, || {
        let sought = black_box(&trees[MAX_ENTRIES - 1]);
        assert_eq!(trees.iter().position(|tree| tree == sought), Some(MAX_ENTRIES - 1));
    });
    println!(
        "an existing type made, 4,096 types in 65,536 bytes: {:.1} ms, \
         the Rust's == over them all {:.1} ms, its search {:.3} ms",
        made / 1e6,
        rust_form / 1e6,
        rust_found / 1e6
    );
    println!("the last of them read: {:.1} ms", read / 1e6);
}

/// Whether no two trees are equal.
fn all_differ(trees: &[Type]) -> bool {
    trees.iter().enumerate().all(|(place, tree)| !trees[..place].contains(tree))
}

// ---- Shared children ----

/// So many types of one kind, each with sixteen times the one before as children.
pub fn nested(entries: &mut Vec<Entry>, kind: u8, leaf: u16, times: usize) -> u32 {
    let mut child = leaf;
    for _ in 0..times {
        entries.push(Entry::of(kind, &[child; MAX_CHILDREN]));
        child = (FIXED_TYPES + entries.len() - 1) as u16;
    }
    child.into()
}

/// A generic 32 deep below tuples: is there one, and what is it with Int in its place.
fn shared_generic() {
    let mut entries = vec![Entry::named(GENERIC, A)];
    let number = nested(&mut entries, TUPLE, FIXED_TYPES as u16, MAX_DEPTH - 1);
    let before = page_of(&entries, PAGE_BYTES);
    let mut page = before.clone();
    let (p, n) = (page.as_mut_ptr(), page.len());
    let bound = bindings(&[(A, INT.into())]);
    // SAFETY: each pointer goes with its length, and the bindings have theirs.
    let found = timed(SHARED_CALLS, || unsafe {
        assert_eq!(riddlepoppy_has_generic(p, n, dangling(), 0, false, number), 1);
    });
    let made = number + MAX_DEPTH as u32 - 1;
    let substituted = timed(SHARED_CALLS, || unsafe {
        page.copy_from_slice(&before);
        let code = riddlepoppy_substitute(p, n, dangling(), 0, false, number, bound.as_ptr());
        assert_eq!(code, made, "as many new types as tuples");
    });
    println!("has_generic, sixteen shared children 32 deep: {:.1} µs", found / 1e3);
    println!("substitute there, and a page of 65,536 bytes copied: {:.1} µs", substituted / 1e3);
}

/// Sixteen shared children so deep, over two different leaves, on a page.
struct Shared {
    page: Vec<u8>,
    left: u32,
    right: u32,
}

impl Shared {
    fn new(kind: u8, leaves: [u8; 2], depth: usize) -> Self {
        let mut entries = Vec::new();
        let [left, right] = leaves.map(|leaf| nested(&mut entries, kind, leaf.into(), depth));
        Self { page: page_of(&entries, PAGE_BYTES), left, right }
    }

    /// Microseconds for `matches` of the left against the right.
    fn matches(&self, yes: bool) -> f64 {
        let (p, n) = (self.page.as_ptr(), self.page.len());
        // SAFETY: the pointer goes with its length.
        let time = timed(SHARED_CALLS, || unsafe {
            let code = riddlepoppy_matches(p, n, dangling(), 0, false, self.left, self.right);
            assert_eq!(code, yes.into());
        });
        time / 1e3
    }
}

/// The same as the Rust's trees, which share their children too.
fn rust_nested(of: fn(Rc<Vec<Type>>) -> Type, leaf: Type, depth: usize) -> Type {
    (0..depth).fold(leaf, |child, _| of(Rc::new(vec![child; MAX_CHILDREN])))
}

/// Microseconds for the Rust's `matches`, once.
pub fn rust_matches(left: Type, right: Type, yes: bool) -> f64 {
    let (left, right) = (CheckType::Known(left), CheckType::Known(right));
    timed(1, || assert_eq!(black_box(&left).matches(&right), yes)) / 1e3
}

fn print(what: &str, depth: usize, ours: f64, rust: Option<f64>) {
    let rust = rust.map_or(String::new(), |rust| format!(", the Rust {rust:.1} µs"));
    println!("{what}, sixteen shared children {depth} deep: {ours:.1} µs{rust}");
}

/// Tuples over Null against tuples over Int: every leaf is looked at, and passes.
fn shared_matches(depth: usize, with_rust: bool) {
    let ours = Shared::new(TUPLE, [NULL, INT], depth).matches(true);
    let rust = with_rust.then(|| {
        let [left, right] =
            [Type::Null, Type::Int].map(|leaf| rust_nested(Type::Tuple, leaf, depth));
        rust_matches(left, right, true)
    });
    print("matches, tuples over Null against Int", depth, ours, rust);
}

/// Unions over Int against unions over Null: every pair of members is looked at, and fails.
fn shared_unions(depth: usize, with_rust: bool) {
    let ours = Shared::new(ANY, [INT, NULL], depth).matches(false);
    let rust = with_rust.then(|| {
        let [left, right] = [Type::Int, Type::Null].map(|leaf| rust_nested(Type::Any, leaf, depth));
        rust_matches(left, right, false)
    });
    print("matches, unions over Int against Null", depth, ours, rust);
}

/// Tuples over Null with tuples over Int.
fn shared_unify(depth: usize, with_rust: bool) {
    let Shared { page, left, right } = Shared::new(TUPLE, [NULL, INT], depth);
    let (p, n) = (page.as_ptr(), page.len());
    let mut bound = bindings(&[]);
    // SAFETY: the pointer goes with its length, and the bindings have theirs.
    let ours = timed(SHARED_CALLS, || unsafe {
        let code = riddlepoppy_unify(p, n, dangling(), 0, false, left, right, bound.as_mut_ptr());
        assert_eq!(code, 1);
    }) / 1e3;
    let rust = with_rust.then(|| {
        let [left, right] =
            [Type::Null, Type::Int].map(|leaf| rust_nested(Type::Tuple, leaf, depth));
        timed(1, || assert!(unify(black_box(&left), &right, &mut HashMap::new()))) / 1e3
    });
    print("unify, tuples over Null with Int", depth, ours, rust);
}
