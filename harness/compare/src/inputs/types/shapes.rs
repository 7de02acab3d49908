//! Types as trees over name numbers, the small ones all, and their stores.

use crate::limits::{BINDINGS_BYTES, MAX_NAMES};
use crate::types::bindings::Bindings;
use crate::types::store::{is_named, Entry, Store};

/// A type with all that is below it.
#[derive(Debug, Clone, PartialEq, Eq)]
pub struct Shape {
    pub kind: u8,
    pub children: Vec<Shape>,
    pub name: u8,
}

pub const NULL: u8 = 0;
pub const INT: u8 = 1;
pub const CINT: u8 = 2;
pub const UINT: u8 = 3;
pub const CUINT: u8 = 4;
pub const FLOAT: u8 = 5;
pub const CFLOAT: u8 = 6;
pub const BOOL: u8 = 7;
pub const CBOOL: u8 = 8;
pub const STRING: u8 = 9;
pub const CSTRING: u8 = 10;
pub const BYTE: u8 = 11;
pub const CBYTE: u8 = 12;
pub const CHAR: u8 = 13;
pub const HANDLE_INFER: u8 = 17;
pub const FN: u8 = 18;
pub const ARRAY: u8 = 19;
pub const CARRAY: u8 = 20;
pub const SET: u8 = 21;
pub const CSET: u8 = 22;
pub const RESULT: u8 = 23;
pub const CRESULT: u8 = 24;
pub const MAP: u8 = 25;
pub const CMAP: u8 = 26;
pub const TUPLE: u8 = 27;
pub const CTUPLE: u8 = 28;
pub const ANY: u8 = 29;
pub const CANY: u8 = 30;
pub const CALLBACK: u8 = 31;
pub const RECORD: u8 = 32;
pub const CRECORD: u8 = 33;
pub const ENUM: u8 = 34;
pub const CENUM: u8 = 35;
pub const HANDLE: u8 = 36;
pub const GENERIC: u8 = 37;

/// Two names that types have.
pub const A: u8 = 0;
pub const B: u8 = 1;

pub fn of(kind: u8, children: &[Shape]) -> Shape {
    Shape { kind, children: children.to_vec(), name: 0 }
}

pub fn fixed(kind: u8) -> Shape {
    of(kind, &[])
}

pub fn named(kind: u8, name: u8) -> Shape {
    Shape { kind, children: Vec::new(), name }
}

pub fn generic(name: u8) -> Shape {
    named(GENERIC, name)
}

/// A type with that child alone.
pub fn holding(kind: u8, child: &Shape) -> Shape {
    Shape { kind, children: vec![child.clone()], name: 0 }
}

pub fn array(child: Shape) -> Shape {
    holding(ARRAY, &child)
}

/// Such types over fixed ones.
pub fn over(kind: u8, children: &[u8]) -> Shape {
    of(kind, &children.iter().map(|&child| fixed(child)).collect::<Vec<_>>())
}

/// A type below so many of one kind.
pub fn below(kind: u8, times: usize, shape: &Shape) -> Shape {
    (0..times).fold(shape.clone(), |shape, _| of(kind, &[shape]))
}

impl Shape {
    pub fn has_generic(&self) -> bool {
        self.kind == GENERIC || self.children.iter().any(Shape::has_generic)
    }
}

/// Enters a type, children before their parent; all limits are kept but the page's.
pub fn enter(store: &mut Store, shape: &Shape) -> u16 {
    let children: Vec<u16> = shape.children.iter().map(|child| enter(store, child)).collect();
    let entry = match is_named(shape.kind) {
        true => Entry::named(shape.kind, shape.name),
        false => Entry::of(shape.kind, &children),
    };
    store.make(entry, usize::MAX).expect("a type within the limits")
}

/// The page of a store that holds just these types and what is below them, with the
/// numbers of the types, and so many bytes of room.
pub fn stored<const N: usize>(shapes: [&Shape; N], room: usize) -> (Vec<u8>, [u16; N]) {
    let mut store = Store::default();
    let numbers = shapes.map(|shape| enter(&mut store, shape));
    let mut page = store.write(0);
    page.resize(page.len() + room, 0);
    (page, numbers)
}

/// How many bytes of a page in form the store takes.
pub fn used(page: &[u8]) -> usize {
    Store::read(page, MAX_NAMES).expect("a store in form").write(0).len()
}

/// The bytes of any bindings; rubbish stands past their count.
pub fn bindings(bound: &[(u8, u16)]) -> [u8; BINDINGS_BYTES] {
    Bindings(bound.to_vec()).write(&[0xEE; BINDINGS_BYTES])
}

/// All lists of so many of the choices.
fn lists(choices: &[Shape], count: usize) -> Vec<Vec<Shape>> {
    let mut lists = vec![Vec::new()];
    for _ in 0..count {
        let longer = |list: &Vec<Shape>| {
            let list = list.clone();
            choices.iter().map(move |choice| [list.clone(), vec![choice.clone()]].concat())
        };
        lists = lists.iter().flat_map(longer).collect();
    }
    lists
}

/// Types of the kind over every list of `counts` choices.
pub fn all_over(
    kind: u8,
    choices: &[Shape],
    counts: std::ops::RangeInclusive<usize>,
) -> Vec<Shape> {
    let over = |count| lists(choices, count).into_iter().map(move |list| of(kind, &list));
    counts.flat_map(over).collect()
}

/// The fixed types, the named ones with two names, and every type over a handful of children.
fn one_level() -> Vec<Shape> {
    let [null, int, cint, byte] = [NULL, INT, CINT, BYTE].map(fixed);
    let (a, b) = (generic(A), generic(B));
    let mut shapes: Vec<Shape> = (0..=FN).map(fixed).collect();
    for kind in RECORD..=GENERIC {
        shapes.extend([named(kind, A), named(kind, B)]);
    }
    let handful = [null.clone(), int.clone(), cint.clone(), byte, a.clone(), b];
    for kind in ARRAY..=CRESULT {
        shapes.extend(all_over(kind, &handful, 1..=1));
    }
    for kind in [MAP, CMAP] {
        shapes.extend(all_over(kind, &[null.clone(), int.clone(), cint.clone(), a.clone()], 2..=2));
    }
    for kind in [TUPLE, CTUPLE] {
        shapes.extend(all_over(kind, &[null.clone(), int.clone(), a.clone()], 0..=3));
    }
    for kind in [ANY, CANY] {
        shapes.extend(all_over(kind, &[null.clone(), int.clone(), cint.clone()], 0..=3));
    }
    shapes.extend(all_over(CALLBACK, &[null, int, a], 1..=3));
    shapes
}

/// Types over types that have children themselves, for each rule that looks below.
fn two_levels() -> Vec<Shape> {
    let a = generic(A);
    let inner = [
        over(ARRAY, &[NULL]),
        over(CARRAY, &[INT]),
        array(a.clone()),
        over(TUPLE, &[]),
        over(TUPLE, &[NULL, INT]),
        over(MAP, &[NULL, INT]),
        over(CMAP, &[STRING, INT]),
        over(SET, &[INT]),
        over(ANY, &[INT]),
        holding(ANY, &a),
        over(CANY, &[]),
        over(CALLBACK, &[INT]),
        named(RECORD, A),
    ];
    let mut shapes = vec![over(CARRAY, &[CBYTE]), over(ARRAY, &[FLOAT])];
    for child in &inner {
        shapes.extend([ARRAY, CARRAY, SET, CRESULT].map(|kind| holding(kind, child)));
        shapes.push(of(MAP, &[child.clone(), fixed(INT)]));
        shapes.push(of(CMAP, &[fixed(STRING), child.clone()]));
        shapes.push(of(TUPLE, &[child.clone(), fixed(CINT)]));
        shapes.push(holding(ANY, child));
        shapes.push(of(CANY, &[fixed(FLOAT), child.clone()]));
        shapes.push(of(CALLBACK, &[child.clone(), a.clone()]));
    }
    // Maps below maps, which Null elides on either side.
    for inner in [over(MAP, &[NULL, INT]), over(CMAP, &[INT, NULL]), over(MAP, &[INT, INT])] {
        shapes.push(of(MAP, &[fixed(NULL), inner.clone()]));
        shapes.push(of(MAP, &[inner.clone(), fixed(INT)]));
        shapes.push(of(CMAP, &[inner, fixed(NULL)]));
    }
    shapes
}

/// Types with both generics, with one twice, and with several children that
/// substitution makes anew.
fn generics() -> Vec<Shape> {
    let (a, b) = (generic(A), generic(B));
    vec![
        of(TUPLE, &[a.clone(), b.clone(), a.clone()]),
        of(TUPLE, &[a.clone(), fixed(BOOL)]),
        of(TUPLE, &[fixed(NULL), a.clone(), over(ANY, &[INT, CINT, FLOAT])]),
        of(MAP, &[a.clone(), of(CTUPLE, &[b.clone(), a.clone()])]),
        of(TUPLE, &[array(a.clone()), holding(SET, &a)]),
        of(CMAP, &[array(b.clone()), holding(RESULT, &array(a.clone()))]),
        of(CALLBACK, &[array(a.clone()), array(b), holding(CTUPLE, &a)]),
    ]
}

/// Every small type.
pub fn small() -> Vec<Shape> {
    [one_level(), two_levels(), generics()].concat()
}
