//! Pages of every short length and of great ones, every kind made, damaged stores,
//! the limits, names beside a store, and bindings in form and broken.

use super::shapes::{
    array, below, bindings, enter, fixed, generic, named, of, over, stored, Shape, A, ANY, ARRAY,
    B, CALLBACK, CRESULT, CTUPLE, GENERIC, HANDLE, INT, MAP, NULL, RECORD, SET, STRING, TUPLE,
};
use crate::call::Question;
use crate::inputs::names::{shortest_names, table, table_on};
use crate::inputs::unused::{lendings, wide, LOW, WIDE};
use crate::inputs::{damaged_everywhere, Sink};
use crate::limits::{
    BINDINGS_BYTES, FIXED_TYPES, FUNCTION, MAX_BINDINGS, MAX_CHILDREN, MAX_DEPTH, MAX_ENTRIES,
    MAX_NAMES, UNKNOWN,
};
use crate::random::Random;
use crate::types::bindings::{name_at, type_at};
use crate::types::is_within_reach;
use crate::types::store::{page_of, Entry, Store};

/// Page lengths that are tried one by one.
const SHORT_PAGES: usize = 40;

/// The number of a store's first type.
const FIRST: u32 = FIXED_TYPES as u32;

pub fn questions(random: &mut Random, ask: Sink) {
    short_pages(ask);
    every_kind(ask);
    every_byte(ask);
    damaged_stores(random, ask);
    broken_stores(ask);
    depths(ask);
    full_stores(ask);
    long_pages(random, ask);
    names_beside(ask);
    numbers(ask);
    broken_bindings(ask);
    wide_names(ask);
    functions(ask);
}

/// Each call once on that page, about the first type of its store and the second.
fn ask_each(page: &[u8], names: &[u8], lent: bool, ask: Sink) {
    let bound = bindings(&[(A, INT.into())]);
    let two = [FIRST, FIRST + 1];
    let questions = [
        Question::empty_types(page),
        Question::make_type(page, names, lent, &Entry::of(ARRAY, &[FIRST as u16])),
        Question::make_type(page, names, lent, &Entry::named(RECORD, B)),
        Question::read_type(page, names, lent, FIRST),
        Question::matches(page, names, lent, FIRST + 1, FIRST),
        Question::has_generic(page, names, lent, FIRST + 1),
        Question::into_const(page, names, lent, FIRST),
        Question::unify(page, names, lent, two, &bound),
        Question::unify_arg(page, names, lent, [FIRST, FUNCTION + FIRST + 1], &bound),
        Question::substitute(page, names, lent, FIRST + 1, &bound),
    ];
    for question in questions.into_iter().filter(is_within_reach) {
        ask(question);
    }
}

/// Small stores: none, and some with every kind of part.
pub fn small_stores() -> Vec<Vec<u8>> {
    let entries = [
        vec![],
        vec![Entry::named(GENERIC, A), Entry::of(ARRAY, &[19])],
        vec![Entry::of(TUPLE, &[]), Entry::of(MAP, &[9, 19])],
        vec![Entry::of(CALLBACK, &[1, 5]), Entry::of(CALLBACK, &[5]), Entry::named(HANDLE, B)],
        vec![Entry::of(ANY, &[1, 5]), Entry::of(ANY, &[19, 5]), Entry::of(CTUPLE, &[20, 19, 0])],
    ];
    entries.iter().map(|entries| page_of(entries, 0)).collect()
}

/// Pages of each short length: of zeros, of 255s, and of stores cut short or followed by zeros.
fn short_pages(ask: Sink) {
    let names = table_on(&["a", "b"], 0);
    for length in 0..=SHORT_PAGES {
        for mut page in small_stores().into_iter().chain([vec![0; length], vec![255; length]]) {
            page.resize(length, 0);
            ask_each(&page, &names, true, ask);
            ask_each(&page, &[255], false, ask);
        }
    }
}

/// Kinds 0 to 40, and some beyond, with every count of children up to one too many,
/// with children and names in use and not, on pages with room and without.
fn every_kind(ask: Sink) {
    let names = table_on(&["a", "b"], 0);
    let broken = table_on(&["a", "a"], 0);
    let store = &small_stores()[3];
    let with_room = [&store[..], &[0; 40]].concat();
    let out_of_form = [&store[..], &[1]].concat();
    for kind in (0..=40).chain([127, 128, 255]) {
        for count in (0..=4).chain([15, 16, 17, 18, 256, 257]) {
            let children: Vec<u16> = (0..count).map(|place| [1, 19, 5, 21][place % 4]).collect();
            // The first that is not in use, the last, and one whose low byte alone would be.
            let unused = [22, u16::MAX, 256 + 1][(usize::from(kind) + count) % 3];
            for place in [None, Some(0), Some(count / 2), count.checked_sub(1)] {
                let mut children = children.clone();
                if let Some(child) = place.and_then(|place| children.get_mut(place)) {
                    *child = unused;
                }
                for name in [A, B, 2, 255] {
                    let entry = Entry { kind, children: children.clone(), name };
                    ask(Question::make_type(&with_room, &names, true, &entry));
                    ask(Question::make_type(&with_room, &[9], false, &entry));
                    ask(Question::make_type(store, &names, true, &entry));
                }
                let entry = Entry { kind, children, name: A };
                ask(Question::make_type(&with_room, &broken, true, &entry));
                ask(Question::make_type(&out_of_form, &names, true, &entry));
            }
        }
    }
    rooms(ask);
}

/// New types and known ones where the page has just the room, less and more.
fn rooms(ask: Sink) {
    let store = page_of(&[Entry::of(ARRAY, &[1]), Entry::named(RECORD, A)], 0);
    let entries = [
        Entry::of(ARRAY, &[1]),
        Entry::named(RECORD, A),
        Entry::of(SET, &[1]),
        Entry::of(TUPLE, &[]),
        Entry::of(TUPLE, &[0; MAX_CHILDREN]),
        Entry::of(CALLBACK, &[19; MAX_CHILDREN]),
        Entry::of(MAP, &[1, 19]),
        Entry::named(GENERIC, A),
        Entry::of(INT, &[]),
    ];
    for entry in entries {
        for room in 0..=SHORT_PAGES {
            let page = [&store[..], &vec![0; room]].concat();
            ask(Question::make_type(&page, b"", false, &entry));
        }
    }
}

/// Every byte of small stores changed to every other.
fn every_byte(ask: Sink) {
    let names = table_on(&["a", "b"], 0);
    for (number, store) in small_stores().into_iter().enumerate() {
        let page = [&store[..], &[0; 5]].concat();
        for place in 0..page.len() {
            for byte in 0..=255 {
                ask_each(&changed(&page, place, byte), &names, number % 2 == 1, ask);
            }
        }
    }
}

fn changed(bytes: &[u8], place: usize, byte: u8) -> Vec<u8> {
    let mut bytes = bytes.to_vec();
    bytes[place] = byte;
    bytes
}

fn damaged_stores(random: &mut Random, ask: Sink) {
    let names = table_on(&["a", "b", "c"], 0);
    for store in small_stores() {
        for room in [0, 4] {
            let page = [&store[..], &vec![0; room]].concat();
            for damaged in damaged_everywhere(&page, random) {
                ask_each(&damaged, &names, true, ask);
                ask_each(&damaged, b"", false, ask);
            }
        }
    }
}

/// Pages that look like a store: equal entries near and far, children not below their
/// parent, wrong counts, kinds that are not stored, counts that the page has no bytes for.
fn broken_stores(ask: Sink) {
    let (array, tuple) = (Entry::of(ARRAY, &[1]), Entry::of(TUPLE, &[19, 19]));
    let record = Entry::named(RECORD, A);
    let lists = [
        vec![array.clone(), array.clone()],
        vec![array.clone(), tuple.clone(), record.clone(), array.clone()],
        vec![array.clone(), tuple.clone(), record.clone(), tuple.clone()],
        vec![record.clone(), array.clone(), record.clone()],
        vec![record.clone(), Entry::named(RECORD, B), Entry::named(RECORD + 1, A)],
        vec![Entry::of(ARRAY, &[19])],
        vec![Entry::of(ARRAY, &[20]), array.clone()],
        vec![array.clone(), Entry::of(TUPLE, &[1, 5, 20])],
        vec![array.clone(), Entry::of(TUPLE, &[1, 5, 65_535])],
        vec![Entry::of(TUPLE, &[1; MAX_CHILDREN])],
        vec![Entry::of(TUPLE, &[1; MAX_CHILDREN + 1])],
        vec![Entry::of(CALLBACK, &[])],
        vec![Entry::of(CALLBACK, &[1; MAX_CHILDREN + 1])],
        vec![Entry::of(MAP, &[1])],
        vec![Entry::of(MAP, &[1, 1, 1])],
        vec![Entry::of(CRESULT, &[])],
        vec![Entry::of(CRESULT, &[1, 1])],
        vec![Entry { children: vec![1], ..record.clone() }],
        vec![Entry::of(0, &[])],
        vec![Entry::of(18, &[])],
        vec![array.clone(), Entry::of(38, &[]), tuple.clone()],
    ];
    for list in &lists {
        for length in [0, 60] {
            ask_each(&page_of(list, length), b"", false, ask);
            ask_each(&page_of(list, length), &table_on(&["a", "b"], 0), true, ask);
        }
    }
    for count in [0, 1, 3, 4, 255, 256, 258, MAX_ENTRIES, MAX_ENTRIES + 1, 0x1000, 0xFFFF] {
        let mut page = page_of(&[array.clone(), tuple.clone()], 9_000);
        page[..2].copy_from_slice(&(count as u16).to_be_bytes());
        ask_each(&page, b"", false, ask);
    }
}

/// A page whose types lie each below the next, so many deep, over each kind with children.
fn chain(kind: u8, depth: usize) -> Vec<Entry> {
    let child = |place: usize| match place {
        0 => INT.into(),
        _ => (FIXED_TYPES + place - 1) as u16,
    };
    let children = |place: usize| match kind {
        MAP => vec![NULL.into(), child(place)],
        TUPLE => vec![child(place), INT.into()],
        _ => vec![child(place)],
    };
    (0..depth - 1).map(|place| Entry::of(kind, &children(place))).collect()
}

/// Types of depth 30 to 34 in the store, made, made const and substituted.
fn depths(ask: Sink) {
    for kind in [ARRAY, SET, CRESULT, MAP, TUPLE, ANY, CALLBACK] {
        for depth in MAX_DEPTH - 2..=MAX_DEPTH + 2 {
            let entries = chain(kind, depth);
            let top = (FIXED_TYPES + entries.len() - 1) as u16;
            for room in [0, 4, 100] {
                let page = page_of(&entries, page_of(&entries, 0).len() + room);
                ask_each(&page, b"", false, ask);
                for children in [&[top][..], &[top - 1], &[top, top], &[1, top], &[top, 1]] {
                    for kind in [ARRAY, MAP, TUPLE, ANY, CALLBACK] {
                        let entry = Entry::of(kind, children);
                        ask(Question::make_type(&page, b"", false, &entry));
                    }
                }
                for number in [top, top - 1] {
                    ask(Question::read_type(&page, b"", false, number.into()));
                    ask(Question::into_const(&page, b"", false, number.into()));
                    ask(Question::matches(&page, b"", false, number.into(), top.into()));
                    let numbers = [number.into(), top.into()];
                    ask(Question::unify(&page, b"", false, numbers, &bindings(&[])));
                }
            }
        }
    }
    for over in [1, 2, 5, 15, 16, 17, 30, 31] {
        for total in [31, 32, 33, 34, 47] {
            if total > over && total - over <= MAX_DEPTH {
                deep_substitutions(over, total - over, ask);
            }
        }
    }
}

/// A type below so many of the kind.
fn held(kind: u8, times: usize, shape: &Shape) -> Shape {
    let holder = |shape: Shape| match kind {
        MAP => of(kind, &[generic(B), shape]),
        TUPLE => of(kind, &[shape, fixed(INT)]),
        _ => of(kind, &[shape]),
    };
    (0..times).fold(shape.clone(), |shape, _| holder(shape))
}

/// A generic below so many types, bound to a type so deep, on pages with room and
/// without: too deep at the top alone or farther down, before a type without room or after it.
fn deep_substitutions(over: usize, under: usize, ask: Sink) {
    let to = below(SET, under - 1, &fixed(INT));
    for kind in [ARRAY, CRESULT, MAP, TUPLE, CALLBACK] {
        let (page, [number, a, b]) =
            stored([&held(kind, over, &generic(A)), &to, &over_strings()], 0);
        let bound = bindings(&[(A, a), (B, b)]);
        for room in [0, 3, 4, 6, 4 * (over - 1), 4 * over, 6 * over, 250] {
            let page = [&page[..], &vec![0; room]].concat();
            ask(Question::substitute(&page, b"", false, number.into(), &bound));
        }
    }
}

/// What B is bound to there.
fn over_strings() -> Shape {
    over(MAP, &[STRING, INT])
}

/// So many different types: the named ones, then tuples of two.
pub fn many(count: usize) -> Vec<Entry> {
    let named = (RECORD..=GENERIC).flat_map(|kind| (0..=255).map(move |name| (kind, name)));
    let named = named.map(|(kind, name)| Entry::named(kind, name));
    let tuples =
        (0..64).flat_map(|left| (0..64).map(move |right| Entry::of(TUPLE, &[left, right])));
    named.chain(tuples).take(count).collect()
}

/// Stores of about 4,077 types, with and without room for one more.
fn full_stores(ask: Sink) {
    for count in [MAX_ENTRIES - 1, MAX_ENTRIES, MAX_ENTRIES + 1] {
        let entries = many(count);
        let own = page_of(&entries, 0).len();
        let last = (FIXED_TYPES + count - 1) as u32;
        for length in [own, own + 40] {
            let page = page_of(&entries, length);
            ask(Question::make_type(&page, b"", false, &entries[count - 1]));
            ask(Question::make_type(&page, b"", false, &Entry::of(ARRAY, &[1])));
            ask(Question::make_type(&page, b"", false, &Entry::of(ARRAY, &[last as u16])));
            ask(Question::read_type(&page, b"", false, last));
            ask(Question::read_type(&page, b"", false, last + 1));
            ask(Question::matches(&page, b"", false, last, last));
            ask(Question::into_const(&page, b"", false, last));
            ask(Question::into_const(&page, b"", false, FIRST));
            // The first generic, and a tuple over it.
            let generic = FIRST + 5 * MAX_NAMES as u32;
            let bound = bindings(&[(A, last as u16)]);
            ask(Question::substitute(&page, b"", false, generic, &bound));
            ask(Question::unify(&page, b"", false, [generic, last], &bindings(&[])));
        }
    }
    full_substitutions(ask);
}

/// Substitution in a store that has one place left, or none.
fn full_substitutions(ask: Sink) {
    let mut entries = vec![Entry::named(GENERIC, A), Entry::of(ARRAY, &[19])];
    entries.push(Entry::of(ARRAY, &[20]));
    let others = many(MAX_ENTRIES).into_iter().filter(|entry| *entry != entries[0]);
    let entries: Vec<Entry> = entries.iter().cloned().chain(others).collect();
    for count in [MAX_ENTRIES - 2, MAX_ENTRIES - 1, MAX_ENTRIES] {
        let page = page_of(&entries[..count], 25_000);
        for bound in [bindings(&[(A, 30)]), bindings(&[(A, 19)]), bindings(&[])] {
            ask(Question::substitute(&page, b"", false, 21, &bound));
        }
    }
}

/// Pages longer than any store, one of them past two bytes of length: as they are, and
/// with a byte other than zero right behind the store, farther on or at the end.
fn long_pages(random: &mut Random, ask: Sink) {
    for store in small_stores() {
        for length in [store.len() + 1, 1_000, 65_535, 65_536, 70_000] {
            let mut page = store.clone();
            page.resize(length, 0);
            ask_each(&page, b"", false, ask);
            for place in [store.len(), (store.len() + length) / 2, length - 1] {
                ask_each(&changed(&page, place, random.byte() | 1), b"", false, ask);
            }
        }
    }
}

/// Tables of none to three names and of all 256, in form and broken, lent and not,
/// beside stores whose names are among them and not.
fn names_beside(ask: Sink) {
    let words = ["a", "b", "c"];
    let mut names: Vec<Vec<u8>> =
        (0..=words.len()).map(|count| table_on(&words[..count], 12)).collect();
    for count in [MAX_NAMES - 1, MAX_NAMES, MAX_NAMES + 1] {
        names.push(table(&shortest_names(count)));
    }
    names.push(table_on(&["a", "a", "c"], 0));
    names.push(table_on(&["a", "2", "c"], 0));
    names.push(changed(&table_on(&words, 12), 11, 1));
    names.push(vec![0]);
    names.push(Vec::new());

    let mut pages = small_stores();
    for name in [A, B, 2, 254, 255] {
        pages.push(stored([&array(generic(name)), &named(HANDLE, name)], 6).0);
    }
    for page in &pages {
        for names in &names {
            ask_each(page, names, true, ask);
            ask_each(page, names, false, ask);
            for (kind, name) in [(RECORD, 2), (GENERIC, 254), (HANDLE, 255), (ARRAY, 255)] {
                let entry = Entry { kind, children: Vec::new(), name };
                ask(Question::make_type(page, names, true, &entry));
            }
            for bound in [(B, 1), (2, 1), (255, 1)] {
                let bound = bindings(&[bound]);
                ask(Question::unify(page, names, true, [1, 1], &bound));
                ask(Question::unify_arg(page, names, true, [1, UNKNOWN], &bound));
                ask(Question::substitute(page, names, true, 1, &bound));
            }
        }
    }
}

/// Numbers in use and not in every place, and Functions that are none.
fn numbers(ask: Sink) {
    let (page, [callback, other]) = stored([&over(CALLBACK, &[INT, INT]), &array(generic(A))], 9);
    let last = u32::from(other);
    let numbers = [0, 18, callback.into(), last, last + 1, 4_095, 4_096, 65_535];
    let codes: Vec<u32> = numbers
        .iter()
        .flat_map(|&number| [number, FUNCTION + number, UNKNOWN + number])
        .chain([u32::MAX, FUNCTION << 8, 1 << 31])
        .collect();
    for &code in &codes {
        ask(Question::read_type(&page, b"", false, code));
        ask(Question::has_generic(&page, b"", false, code));
        ask(Question::into_const(&page, b"", false, code));
        for bound in [bindings(&[]), bindings(&[(A, 1)]), bindings(&[(A, 21)])] {
            ask(Question::substitute(&page, b"", false, code, &bound));
            for &other in &codes {
                ask(Question::unify(&page, b"", false, [code, other], &bound));
                ask(Question::unify_arg(&page, b"", false, [code, other], &bound));
            }
        }
        for &other in &codes {
            ask(Question::matches(&page, b"", false, code, other));
        }
    }
}

/// Bindings in form, full and broken: each count, a name twice at each two places, a type
/// not in use at each, a name not in use; and the same faults past the count.
fn broken_bindings(ask: Sink) {
    let mut store = Store::default();
    let number = enter(&mut store, &of(TUPLE, &[generic(A), generic(200)])).into();
    let page = store.write(60);
    let full: Vec<(u8, u16)> = (0..MAX_BINDINGS as u8).map(|name| (name, name.into())).collect();
    let full: Vec<(u8, u16)> = full.iter().map(|&(name, ty)| (name, ty % 22)).collect();
    let names = table(&shortest_names(MAX_NAMES));
    let few = table(&shortest_names(MAX_BINDINGS));
    let ask_with = &mut |bound: &[u8; BINDINGS_BYTES], names: &[u8], lent: bool| {
        ask(Question::unify(&page, names, lent, [number, number], bound));
        ask(Question::unify_arg(&page, names, lent, [number, number], bound));
        ask(Question::unify_arg(&page, names, lent, [number, UNKNOWN], bound));
        ask(Question::substitute(&page, names, lent, number, bound));
    };
    for count in 0..=255 {
        let mut bound = bindings(&full);
        bound[0] = count;
        ask_with(&bound, b"", false);
        ask_with(&bound, &names, true);
        ask_with(&bound, &few, true);
    }
    for count in [1, 2, 5, MAX_BINDINGS - 1, MAX_BINDINGS] {
        for place in 0..MAX_BINDINGS {
            let mut bound = bindings(&full);
            bound[0] = count as u8;
            let low = type_at(place) + 1;
            for (at, byte) in [(low, 21), (low, 22), (low, 255), (low - 1, 1), (low - 1, 255)] {
                ask_with(&array_with(&bound, at, byte), b"", false);
            }
            for byte in [0, 1, 7, 31, 32, 255] {
                ask_with(&array_with(&bound, name_at(place), byte), b"", false);
                ask_with(&array_with(&bound, name_at(place), byte), &names, true);
            }
        }
    }
}

fn array_with(bytes: &[u8; BINDINGS_BYTES], place: usize, byte: u8) -> [u8; BINDINGS_BYTES] {
    let mut bytes = *bytes;
    bytes[place] = byte;
    bytes
}

/// Numbers too large for a name, beside every kind, with children that it takes and not, in
/// stores that have the names of their low bytes, with room and without.
fn wide_names(ask: Sink) {
    let few = page_of(&[Entry::named(RECORD, A), Entry::named(GENERIC, B)], 0);
    let low: Vec<Entry> =
        (RECORD..=GENERIC).flat_map(|kind| LOW.map(|name| Entry::named(kind, name))).collect();
    let mut lendings = lendings().to_vec();
    lendings.extend([(table_on(&["a", "a"], 0), true), (vec![9], false)]);
    for store in [few, page_of(&low, 0)] {
        for room in [0, 40] {
            let page = [&store[..], &vec![0; room]].concat();
            for (names, lent) in &lendings {
                for kind in (0..=40).chain([255]) {
                    for children in [&[][..], &[1], &[1, 1], &[999]] {
                        for name in WIDE {
                            let entry = Entry::of(kind, children);
                            ask(Question::make_named(&page, names, *lent, &entry, name));
                        }
                    }
                }
            }
        }
    }
    let page = page_of(&low, 200);
    for name in wide() {
        for kind in [ARRAY - 1, TUPLE, RECORD, HANDLE, GENERIC] {
            ask(Question::make_named(&page, b"", false, &Entry::of(kind, &[]), name));
        }
    }
}

/// Callbacks as Known and as Functions, whose const forms are told apart, and the same
/// numbers as Unknown; in small stores and in a full one.
fn functions(ask: Sink) {
    let callbacks = [
        over(CALLBACK, &[INT]),
        over(CALLBACK, &[INT; MAX_CHILDREN]),
        of(CALLBACK, &[generic(A), array(generic(B))]),
        of(CALLBACK, &[over(CALLBACK, &[INT]), over(CALLBACK, &[NULL, INT])]),
        array(over(CALLBACK, &[STRING])),
    ];
    let ask_all = &mut |page: &[u8], names: &[u8], lent: bool, last: u32| {
        for number in FIRST..=last + 1 {
            for checked in [number, FUNCTION + number, UNKNOWN + number] {
                ask(Question::into_const(page, names, lent, checked));
            }
        }
    };
    for shape in &callbacks {
        for room in [0, 4, 40] {
            let (page, [last]) = stored([shape], room);
            for (names, lent) in &lendings() {
                ask_all(&page, names, *lent, last.into());
            }
            ask_all(&page, &table_on(&["a"], 0), true, last.into());
        }
    }
    let mut entries = many(MAX_ENTRIES - 1);
    entries.push(Entry::of(CALLBACK, &[1]));
    let (page, last) = (page_of(&entries, 0), (FIXED_TYPES + MAX_ENTRIES - 1) as u32);
    for checked in [last, FUNCTION + last, FUNCTION + last - 1, UNKNOWN + last] {
        ask(Question::into_const(&page, b"", false, checked));
    }
}
