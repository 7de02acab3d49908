//! Random types, deep and wide, types near to them, and one random question of each call.

use super::shapes::{
    bindings, enter, fixed, generic, named, of, Shape, A, ANY, ARRAY, BYTE, CALLBACK, CANY, CBYTE,
    CINT, CRESULT, CTUPLE, FN, GENERIC, HANDLE_INFER, INT, MAP, NULL, RECORD, TUPLE,
};
use crate::call::Question;
use crate::inputs::damaged_somewhere;
use crate::inputs::names::{different_names, shortest_names, table};
use crate::limits::{
    BINDINGS_BYTES, FIXED_TYPES, FUNCTION, MAX_BINDINGS, MAX_CHILDREN, MAX_DEPTH, MAX_NAMES,
    UNKNOWN,
};
use crate::random::Random;
use crate::types::bindings::{name_at, type_at};
use crate::types::is_within_reach;
use crate::types::store::{child_counts, page_of, Entry, Store};

// ---- Types ----

/// A type without children over the names below `bound`.
fn some_leaf(random: &mut Random, bound: usize) -> Shape {
    let often = [NULL, INT, INT, CINT, BYTE, CBYTE, HANDLE_INFER, FN];
    let name = random.below(bound) as u8;
    match random.below(8) {
        0..=3 => fixed(*random.pick(&often)),
        4 => fixed(random.below(usize::from(FN) + 1) as u8),
        5 | 6 => generic(name),
        _ => named(RECORD + random.below(6) as u8, name),
    }
}

/// A type of about so many nodes, and not too deep.
pub fn some_shape(random: &mut Random, size: usize, bound: usize) -> Shape {
    shape_of(random, size, bound, MAX_DEPTH)
}

fn shape_of(random: &mut Random, size: usize, bound: usize, depth: usize) -> Shape {
    if size <= 1 || depth <= 1 {
        return some_leaf(random, bound);
    }
    let kind = match random.below(4) {
        0 => ARRAY + random.below(usize::from(CRESULT - ARRAY) + 1) as u8,
        1 => *random.pick(&[TUPLE, CTUPLE, ANY, CANY]),
        _ => ARRAY + random.below(usize::from(CALLBACK - ARRAY) + 1) as u8,
    };
    let counts = child_counts(kind);
    let most = if random.once_in(20) { MAX_CHILDREN } else { 4 };
    let count = random.below(most + 1).clamp(*counts.start(), *counts.end());
    let share = (size - 1) / count.max(1);
    let children: Vec<Shape> =
        (0..count).map(|_| shape_of(random, share, bound, depth - 1)).collect();
    of(kind, &children)
}

fn depth(shape: &Shape) -> usize {
    1 + shape.children.iter().map(depth).max().unwrap_or(0)
}

/// The type below others, often as many as the depth of 32 allows, or one fewer.
fn deepened(random: &mut Random, shape: Shape) -> Shape {
    let most = MAX_DEPTH - depth(&shape);
    let more = match random.below(3) {
        0 => most,
        1 => most.saturating_sub(1),
        _ => random.below(most + 1),
    };
    let kinds = [ARRAY, ARRAY + 1, CRESULT, TUPLE, CTUPLE, ANY, CALLBACK];
    (0..more).fold(shape, |shape, _| of(*random.pick(&kinds), &[shape]))
}

/// A small type, or seldom a deep one.
fn some_type(random: &mut Random, bound: usize) -> Shape {
    let size = *random.pick(&[1, 2, 3, 5, 8, 13, 30]);
    let shape = some_shape(random, size, bound);
    match random.below(8) {
        0 => deepened(random, shape),
        _ => shape,
    }
}

/// The other kind of the two, const and not, where there is one.
fn turned(kind: u8) -> u8 {
    match kind {
        1..=16 | 19..=30 if kind % 2 == 1 => kind + 1,
        1..=16 | 19..=30 => kind - 1,
        32..=35 => kind ^ 1,
        _ => kind,
    }
}

/// A type that differs from another in few places, or not at all.
fn near(random: &mut Random, shape: &Shape, bound: usize) -> Shape {
    let changed = changed(random, shape, bound);
    if depth(&changed) <= MAX_DEPTH {
        changed
    } else {
        shape.clone()
    }
}

fn changed(random: &mut Random, shape: &Shape, bound: usize) -> Shape {
    let mut shape = shape.clone();
    for child in &mut shape.children {
        *child = changed(random, child, bound);
    }
    match random.below(40) {
        0 => fixed(NULL),
        1 => generic(random.below(bound) as u8),
        2 => some_leaf(random, bound),
        3..=5 => Shape { kind: turned(shape.kind), ..shape },
        6 => reversed(shape),
        7 => shortened(shape),
        8 if depth(&shape) < 4 => of(ANY, &[some_leaf(random, bound), shape]),
        _ => shape,
    }
}

/// The children of a union the other way round.
fn reversed(mut shape: Shape) -> Shape {
    if [ANY, CANY].contains(&shape.kind) {
        shape.children.reverse();
    }
    shape
}

/// A child fewer, where the kind allows it.
fn shortened(mut shape: Shape) -> Shape {
    if (TUPLE..=CANY).contains(&shape.kind) {
        shape.children.pop();
    }
    shape
}

// ---- Stores, names and bindings ----

/// A store on its page, the names beside it, the number below which its names lie, and
/// two types of it that are often near each other.
struct Setting {
    store: Store,
    page: Vec<u8>,
    names: Vec<u8>,
    lent: bool,
    bound: usize,
    two: [u16; 2],
}

fn some_setting(random: &mut Random) -> Setting {
    let bound = *random.pick(&[1, 2, 3, 3, 4, 9, MAX_NAMES]);
    let lent = random.once_in(2) && (bound < MAX_NAMES || random.once_in(4));
    let names = if lent { names_for(random, bound) } else { rubbish(random) };
    // Seldom a name that is not in use.
    let known = if bound < MAX_NAMES && random.once_in(15) { bound + 1 } else { bound };
    let mut store = Store::default();
    let first = some_type(random, known);
    let second = match random.below(4) {
        0 => some_type(random, known),
        _ => near(random, &first, known),
    };
    if random.once_in(3) {
        enter(&mut store, &some_type(random, known));
    }
    let two = match random.below(2) {
        0 => [&first, &second],
        _ => [&second, &first],
    };
    let two = two.map(|shape| enter(&mut store, shape));
    for _ in 0..random.below(4) {
        shared(random, &mut store);
    }
    let page = page_for(&store, random);
    Setting { store, page, names, lent, bound, two }
}

/// One more type over any types of the store, unless it would be too deep.
fn shared(random: &mut Random, store: &mut Store) {
    let kind = ARRAY + random.below(usize::from(CALLBACK - ARRAY) + 1) as u8;
    let counts = child_counts(kind);
    let count = random.below(4).clamp(*counts.start(), *counts.end());
    let children: Vec<u16> = (0..count).map(|_| random.below(store.count()) as u16).collect();
    // A refusal leaves the store as it is.
    let _ = store.make(Entry::of(kind, &children), usize::MAX);
}

/// A page of the store with about as much room as one more type needs, seldom damaged.
pub fn page_for(store: &Store, random: &mut Random) -> Vec<u8> {
    let mut page = store.write(0);
    let room = *random.pick(&[0, 1, 2, 3, 4, 5, 6, 8, 16, 40, 100]);
    page.resize(page.len() + room, 0);
    match random.below(15) {
        0 => damaged_somewhere(&page, random),
        1 => repeated(&page, random),
        _ => page,
    }
}

/// The store with one of its types once more at the end.
fn repeated(page: &[u8], random: &mut Random) -> Vec<u8> {
    let store = Store::read(page, MAX_NAMES).expect("in form");
    let mut entries: Vec<Entry> =
        (FIXED_TYPES..store.count()).map(|number| store.entry(number as u16)).collect();
    if !entries.is_empty() {
        let again = random.pick(&entries).clone();
        entries.push(again);
    }
    page_of(&entries, page.len())
}

/// A names page with so many names, seldom damaged.
pub fn names_for(random: &mut Random, bound: usize) -> Vec<u8> {
    let names = match bound {
        MAX_NAMES => shortest_names(bound),
        _ => different_names(random, bound),
    };
    let mut page = table(&names);
    page.resize(page.len() + random.below(4), 0);
    match random.below(15) {
        0 => damaged_somewhere(&page, random),
        _ => page,
    }
}

/// A names page that is not lent.
pub fn rubbish(random: &mut Random) -> Vec<u8> {
    let length = random.below(6);
    (0..length).map(|_| random.byte()).collect()
}

/// A number in use, most often one of the two types or below them; seldom the first
/// that is not in use, or any.
fn some_number(random: &mut Random, setting: &Setting) -> u32 {
    match random.below(24) {
        0 => setting.store.count() as u32,
        1 => *random.pick(&[65_535, 65_536, u32::MAX, 1 << 20]),
        2..=9 => random.below(setting.store.count()) as u32,
        _ => (*random.pick(&setting.two)).into(),
    }
}

/// The two types; seldom another number in place of one.
fn two_numbers(random: &mut Random, setting: &Setting) -> [u32; 2] {
    let [first, second] = setting.two.map(u32::from);
    match random.below(12) {
        0 => [some_number(random, setting), second],
        1 => [first, some_number(random, setting)],
        2 => [some_number(random, setting), some_number(random, setting)],
        _ => [first, second],
    }
}

/// The number as a checked type: Known, seldom Unknown, often a Function of a Callback.
fn checked(random: &mut Random, setting: &Setting, number: u32) -> u32 {
    let callback = number < setting.store.count() as u32
        && setting.store.entry(number as u16).kind == CALLBACK;
    match random.below(16) {
        0 => UNKNOWN + random.below(1_000) as u32,
        1 => FUNCTION | number,
        2..=9 if callback => FUNCTION + number,
        _ => number,
    }
}

/// Few bindings, of names that the types have, or nearly as many as there may be.
fn some_bindings(random: &mut Random, setting: &Setting) -> [u8; BINDINGS_BYTES] {
    let names = if setting.lent { setting.bound } else { MAX_NAMES };
    let count = *random.pick(&[0, 0, 1, 1, 2, 3, MAX_BINDINGS - 1, MAX_BINDINGS]);
    let mut bound: Vec<(u8, u16)> = Vec::new();
    while bound.len() < count.min(names) {
        let near =
            if bound.len() < setting.bound && random.once_in(2) { setting.bound } else { names };
        let name = random.below(near) as u8;
        if bound.iter().all(|known| known.0 != name) {
            let number = match random.below(3) {
                0 => *random.pick(&setting.two),
                _ => random.below(setting.store.count()) as u16,
            };
            bound.push((name, number));
        }
    }
    let bytes = bindings(&bound);
    match random.below(12) {
        0 => broken(random, bytes, setting),
        _ => bytes,
    }
}

/// A count too large, a name twice or not in use, a type not in use; or the same past the count.
fn broken(
    random: &mut Random,
    mut bytes: [u8; BINDINGS_BYTES],
    setting: &Setting,
) -> [u8; BINDINGS_BYTES] {
    let (from, to) = (random.below(3), random.below(4));
    match random.below(4) {
        0 => bytes[0] = (MAX_BINDINGS + 1 + random.below(3)) as u8,
        1 => bytes[name_at(to)] = bytes[name_at(from)],
        2 => bytes[name_at(to)] = setting.bound as u8,
        _ => {
            let number = setting.store.count() as u16;
            bytes[type_at(to)..][..2].copy_from_slice(&number.to_be_bytes());
        }
    }
    bytes
}

// ---- One random question of each call ----

/// A question that the oracle can be asked.
fn within_reach(random: &mut Random, question: fn(&mut Random, &Setting) -> Question) -> Question {
    loop {
        let setting = some_setting(random);
        let question = question(random, &setting);
        if is_within_reach(&question) {
            return question;
        }
    }
}

pub fn empty_types(random: &mut Random) -> Question {
    let length = *random.pick(&[0, 1, 2, 3, 30, 60]);
    let page: Vec<u8> = (0..length).map(|_| random.byte()).collect();
    Question::empty_types(&page)
}

pub fn make_type(random: &mut Random) -> Question {
    let setting = some_setting(random);
    let entry = match random.below(3) {
        0 => setting.store.entry(*random.pick(&setting.two)),
        _ => some_entry(random, &setting),
    };
    Question::make_type(&setting.page, &setting.names, setting.lent, &entry)
}

/// A type over numbers of the store; seldom of no kind, with an unused child or a wrong count.
fn some_entry(random: &mut Random, setting: &Setting) -> Entry {
    let kind = match random.below(16) {
        0 => random.byte(),
        1 => random.below(19) as u8,
        2..=4 => RECORD + random.below(usize::from(GENERIC - RECORD) + 1) as u8,
        5 => MAP,
        _ => ARRAY + random.below(usize::from(CALLBACK - ARRAY) + 1) as u8,
    };
    let counts = child_counts(kind);
    let count = match random.below(10) {
        0 => random.below(4),
        1 => *random.pick(&[15, 16, 17]),
        _ => random.below(4).clamp(*counts.start(), *counts.end()),
    };
    let child = |random: &mut Random| match random.below(30) {
        0 => setting.store.count() as u16,
        1 => u16::MAX,
        2..=9 => *random.pick(&setting.two),
        _ => random.below(setting.store.count()) as u16,
    };
    let children = (0..count).map(|_| child(random)).collect();
    let name = match random.below(12) {
        0 => random.byte(),
        1 => setting.bound as u8,
        2 => A,
        _ => random.below(setting.bound) as u8,
    };
    Entry { kind, children, name }
}

pub fn read_type(random: &mut Random) -> Question {
    let setting = some_setting(random);
    let number = some_number(random, &setting);
    Question::read_type(&setting.page, &setting.names, setting.lent, number)
}

pub fn matches(random: &mut Random) -> Question {
    within_reach(random, |random, setting| {
        let [actual, expected] = two_numbers(random, setting);
        let (actual, expected) =
            (checked(random, setting, actual), checked(random, setting, expected));
        Question::matches(&setting.page, &setting.names, setting.lent, actual, expected)
    })
}

pub fn has_generic(random: &mut Random) -> Question {
    within_reach(random, |random, setting| {
        let number = some_number(random, setting);
        Question::has_generic(&setting.page, &setting.names, setting.lent, number)
    })
}

pub fn into_const(random: &mut Random) -> Question {
    within_reach(random, |random, setting| {
        let number = some_number(random, setting);
        let checked = checked(random, setting, number);
        Question::into_const(&setting.page, &setting.names, setting.lent, checked)
    })
}

pub fn unify(random: &mut Random) -> Question {
    within_reach(random, |random, setting| {
        let (numbers, bound) = (two_numbers(random, setting), some_bindings(random, setting));
        Question::unify(&setting.page, &setting.names, setting.lent, numbers, &bound)
    })
}

pub fn unify_arg(random: &mut Random) -> Question {
    within_reach(random, |random, setting| {
        let [expected, actual] = two_numbers(random, setting);
        let numbers = [expected, checked(random, setting, actual)];
        let bound = some_bindings(random, setting);
        Question::unify_arg(&setting.page, &setting.names, setting.lent, numbers, &bound)
    })
}

pub fn substitute(random: &mut Random) -> Question {
    within_reach(random, |random, setting| {
        let number = some_number(random, setting);
        let bound = some_bindings(random, setting);
        // Often more room than one new type needs.
        let room = vec![0; *random.pick(&[0, 20, 60, 200])];
        let page = [&setting.page[..], &room].concat();
        Question::substitute(&page, &setting.names, setting.lent, number, &bound)
    })
}
