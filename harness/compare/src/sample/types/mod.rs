//! The chosen rows of types: pages, names, kinds and limits; those of the rules of
//! matching and unification are in `rules`.
//!
//! A page with 4,077 types would take the room of many rows: only the comparison has some.

mod rules;

use crate::call::Question;
use crate::inputs::names::{shortest_names, table, table_on};
use crate::inputs::types::shapes::{
    array, below, bindings, fixed, generic, holding, named, of, over, stored, used, Shape, A, ANY,
    ARRAY, B, CALLBACK, CANY, CARRAY, CMAP, CRESULT, CSET, CTUPLE, FN, GENERIC, HANDLE, INT, MAP,
    NULL, RECORD, RESULT, SET, STRING, TUPLE,
};
use crate::limits::{FIXED_TYPES, FUNCTION, MAX_CHILDREN, MAX_DEPTH, MAX_NAMES, UNKNOWN};
use crate::types::store::{page_of, Entry};

pub fn chosen() -> Vec<Question> {
    [
        emptied_pages(),
        page_lengths(),
        broken_pages(),
        every_kind(),
        wrong_counts(),
        children(),
        room(),
        depths(),
        reads(),
        generics(),
        const_forms(),
        substitutions(),
        deep_substitutions(),
        names_beside(),
        numbers(),
        refusals_at_once(),
        rules::chosen(),
    ]
    .concat()
}

/// A names page that is not lent.
const NO_NAMES: &[u8] = b"";

/// The number of a store's first type.
const FIRST: u32 = FIXED_TYPES as u32;

/// Each call that asks for a store in form, once.
fn each(page: &[u8], names: &[u8], lent: bool) -> [Question; 8] {
    let bound = bindings(&[(A, 1)]);
    [
        Question::make_type(page, names, lent, &Entry::named(RECORD, A)),
        Question::read_type(page, names, lent, FIRST),
        Question::matches(page, names, lent, FIRST, FIRST + 1),
        Question::has_generic(page, names, lent, FIRST),
        Question::into_const(page, names, lent, FIRST),
        Question::unify(page, names, lent, [FIRST, FIRST + 1], &bound),
        Question::unify_arg(page, names, lent, [FIRST, UNKNOWN], &bound),
        Question::substitute(page, names, lent, FIRST, &bound),
    ]
}

/// Two of these calls, taken in turn.
fn some(place: usize, page: &[u8], names: &[u8], lent: bool) -> [Question; 2] {
    let calls = each(page, names, lent);
    [place, place + 3].map(|place| calls[place % calls.len()].clone())
}

/// A page with Array A and Array Int, and so many bytes of room.
fn arrays(room: usize) -> Vec<u8> {
    stored([&array(generic(A)), &array(fixed(INT))], room).0
}

/// Any page of two bytes or more can be emptied, one out of form too.
fn emptied_pages() -> Vec<Question> {
    let mut questions: Vec<Question> =
        [0, 1, 2, 3, 20].map(|length| Question::empty_types(&vec![255; length])).to_vec();
    questions.push(Question::empty_types(&[0; 9]));
    questions.push(Question::empty_types(&arrays(3)));
    questions
}

/// Pages too short for a count, without types, and a store cut, whole and with room.
fn page_lengths() -> Vec<Question> {
    let whole = arrays(6);
    let own = whole.len() - 6;
    let zeros = [0, 1, 2, 3].map(|length| vec![0; length]);
    let stores = [2, own - 1, own, own + 3].map(|length| whole[..length].to_vec());
    let pages = zeros.iter().chain(&stores).enumerate();
    let asked = pages.flat_map(|(place, page)| some(place, page, NO_NAMES, false));
    asked.chain(each(&whole, NO_NAMES, false)).collect()
}

/// Each breach of a page's form. Each is asked about by two calls, taken in turn.
fn broken_pages() -> Vec<Question> {
    let pages: [&[u8]; 26] = [
        b"\xFF\xFF",                                         // entries that are not there
        b"\x00\x01\x00",                                     // a cut entry
        b"\x00\x01\x01\x13\x00",                             // a cut child
        b"\x00\x01\x00\x25",                                 // a cut name
        b"\x00\x02\x00\x1B",                                 // the second is not there
        b"\x0F\xEE\x00\x1B",                                 // 4,078 entries
        b"\x00\x01\x00\x00",                                 // a fixed kind
        b"\x00\x01\x00\x12",                                 // the last of these
        b"\x00\x01\x00\x26",                                 // no kind
        b"\x00\x01\x01\xFF\x00\x01",                         // no kind
        b"\x00\x01\x00\x13",                                 // an array of nothing
        b"\x00\x01\x02\x13\x00\x01\x00\x01",                 // an array of two
        b"\x00\x01\x01\x19\x00\x01",                         // a map without value
        b"\x00\x01\x03\x1A\x00\x01\x00\x01\x00\x01",         // a map of three
        b"\x00\x01\x00\x1F",                                 // a callback without return
        b"\x00\x01\x01\x20\x00",                             // a count beside a name
        b"\x00\x01\x01\x25\x00\x01",                         // and beside a generic
        b"\x00\x01\x01\x13\x00\x13",                         // its own child
        b"\x00\x02\x01\x13\x00\x14\x00\x1B",                 // the child above its parent
        b"\x00\x01\x02\x1B\x00\x01\xFF\xFF",                 // a child not in use
        b"\x00\x02\x00\x1B\x00\x1B",                         // equal entries
        b"\x00\x03\x01\x13\x00\x01\x00\x1B\x01\x13\x00\x01", // equal entries apart
        b"\x00\x03\x00\x25\x07\x00\x25\x06\x00\x25\x07",     // equal names
        b"\x00\x00\x01",                                     // not zero after the last
        b"\x00\x01\x00\x1B\x00\x00\x01",                     // not zero at the end
        b"\x01\x00\x00\x1B",                                 // 256 entries
    ];
    let mut questions = Vec::new();
    for (place, page) in pages.iter().enumerate() {
        questions.extend(some(place, page, NO_NAMES, false));
    }
    let wide = |count: usize| page_of(&[Entry::of(TUPLE, &vec![1; count])], 0);
    for (place, count) in [MAX_CHILDREN, MAX_CHILDREN + 1].into_iter().enumerate() {
        questions.extend(some(place, &wide(count), NO_NAMES, false));
    }
    questions
}

/// The fewest children that a kind takes.
fn fewest(kind: u8) -> usize {
    match kind {
        ARRAY..=CRESULT | CALLBACK => 1,
        MAP | CMAP => 2,
        _ => 0,
    }
}

/// Every kind, and codes that are none.
fn every_kind() -> Vec<Question> {
    let page = page_of(&[Entry::of(TUPLE, &[])], 20);
    let kinds = (0..=GENERIC + 2).chain([255]);
    let entry = |kind| Entry { kind, children: [19, 1][..fewest(kind)].to_vec(), name: 3 };
    let mut questions: Vec<Question> =
        kinds.map(|kind| Question::make_type(&page, NO_NAMES, false, &entry(kind))).collect();
    // A name is looked at only where the kind has one.
    let names = table_on(&["a"], 0);
    for kind in [INT, ARRAY, TUPLE, RECORD, HANDLE, GENERIC] {
        questions.push(Question::make_type(&page, &names, true, &entry(kind)));
    }
    questions
}

/// A child too few or too many, sixteen, and seventeen.
fn wrong_counts() -> Vec<Question> {
    let page = page_of(&[], 40);
    let counts = [
        (NULL, 1),
        (FN, 1),
        (ARRAY, 0),
        (ARRAY, 2),
        (CRESULT, 0),
        (CRESULT, 2),
        (MAP, 1),
        (MAP, 3),
        (CMAP, 0),
        (TUPLE, 16),
        (TUPLE, 17),
        (CTUPLE, 17),
        (ANY, 16),
        (ANY, 17),
        (CANY, 17),
        (CALLBACK, 0),
        (CALLBACK, 16),
        (CALLBACK, 17),
        (RECORD, 1),
        (GENERIC, 1),
    ];
    let ask = |(kind, count): (u8, usize)| {
        Question::make_type(&page, NO_NAMES, false, &Entry::of(kind, &vec![1; count]))
    };
    counts.map(ask).to_vec()
}

/// Children in use and not, those of kinds that take none and surplus ones too; and
/// which types are equal.
fn children() -> Vec<Question> {
    let page = arrays(12);
    let entries = [
        Entry::of(ARRAY, &[21]),
        Entry::of(ARRAY, &[22]),
        Entry::of(ARRAY, &[65_535]),
        Entry::of(ARRAY, &[256 + 1]),
        Entry::of(ARRAY, &[1, 22]),
        Entry::of(TUPLE, &[1, 22, 1]),
        Entry::of(CALLBACK, &[22]),
        Entry::of(INT, &[22]),
        Entry::of(GENERIC, &[22]),
        Entry::of(ARRAY, &[1]),
        Entry::of(ARRAY, &[19]),
        Entry::of(CARRAY, &[1]),
        Entry::of(TUPLE, &[1, 5]),
        Entry::of(TUPLE, &[5, 1]),
        Entry::of(ANY, &[1, 5]),
        Entry::named(GENERIC, A),
        Entry::named(GENERIC, B),
        Entry::named(RECORD, A),
    ];
    entries.map(|entry| Question::make_type(&page, NO_NAMES, false, &entry)).to_vec()
}

/// A new type where the page has just the room, one byte less and one more; a known
/// one where it has none.
fn room() -> Vec<Question> {
    let mut questions = Vec::new();
    for (entry, size) in [
        (Entry::of(SET, &[1]), 4),
        (Entry::of(MAP, &[1, 19]), 6),
        (Entry::of(TUPLE, &[]), 2),
        (Entry::named(RECORD, A), 3),
    ] {
        for room in [size - 1, size, size + 1] {
            questions.push(Question::make_type(&arrays(room), NO_NAMES, false, &entry));
        }
    }
    for known in [Entry::of(ARRAY, &[1]), Entry::named(GENERIC, A), Entry::of(INT, &[])] {
        questions.push(Question::make_type(&arrays(0), NO_NAMES, false, &known));
    }
    questions
}

/// Int so many deep, below arrays.
fn deep(depth: usize) -> Vec<Entry> {
    let child = |place: usize| if place == 0 { 1 } else { (FIXED_TYPES + place - 1) as u16 };
    (0..depth - 1).map(|place| Entry::of(ARRAY, &[child(place)])).collect()
}

/// Types of depth 31 to 33.
fn depths() -> Vec<Question> {
    let mut questions = Vec::new();
    for depth in MAX_DEPTH - 1..=MAX_DEPTH + 1 {
        let entries = deep(depth);
        let page = page_of(&entries, page_of(&entries, 0).len() + 6);
        let top = (FIXED_TYPES + depth - 2) as u16;
        questions.push(Question::read_type(&page, NO_NAMES, false, top.into()));
        questions.push(Question::matches(&page, NO_NAMES, false, top.into(), top.into()));
        for entry in [Entry::of(SET, &[top]), Entry::of(TUPLE, &[1, top])] {
            questions.push(Question::make_type(&page, NO_NAMES, false, &entry));
        }
    }
    // Too deep comes before no room, and after a wrong count.
    let entries = deep(MAX_DEPTH);
    let (page, top) = (page_of(&entries, 0), (FIXED_TYPES + MAX_DEPTH - 2) as u16);
    questions.push(Question::make_type(&page, NO_NAMES, false, &Entry::of(SET, &[top])));
    questions.push(Question::make_type(&page, NO_NAMES, false, &Entry::of(SET, &[top - 1])));
    questions.push(Question::make_type(&page, NO_NAMES, false, &Entry::of(SET, &[top, top])));
    questions.push(Question::into_const(&page, NO_NAMES, false, top.into()));
    questions
}

/// A type of each kind.
fn reads() -> Vec<Question> {
    let mut questions: Vec<Question> = [NULL, INT, FN]
        .map(|kind| Question::read_type(&[0, 0], NO_NAMES, false, kind.into()))
        .into();
    let shapes = [
        array(fixed(INT)),
        below(CSET, 3, &fixed(STRING)),
        of(MAP, &[fixed(STRING), array(fixed(INT))]),
        over(TUPLE, &[]),
        over(CTUPLE, &[1; MAX_CHILDREN]),
        over(ANY, &[NULL]),
        over(CALLBACK, &[INT]),
        named(RECORD, 7),
        generic(255),
    ];
    for shape in shapes {
        let (page, [number]) = stored([&shape], 1);
        questions.push(Question::read_type(&page, NO_NAMES, false, number.into()));
    }
    questions
}

/// A generic itself, below each kind, and below none.
fn generics() -> Vec<Question> {
    let ask = |shape: &Shape| {
        let (page, [number]) = stored([shape], 0);
        Question::has_generic(&page, NO_NAMES, false, number.into())
    };
    let a = generic(A);
    let mut shapes = vec![fixed(INT), named(RECORD, A), named(HANDLE, A), a.clone()];
    for kind in ARRAY..=CALLBACK {
        shapes.push(of(kind, &vec![a.clone(); fewest(kind).max(1)]));
    }
    shapes.extend([over(SET, &[INT]), over(MAP, &[INT, INT]), over(CALLBACK, &[INT])]);
    let int = fixed(INT);
    shapes.push(of(MAP, &[int.clone(), a.clone()]));
    shapes.push(of(MAP, &[a.clone(), int.clone()]));
    shapes.push(of(TUPLE, &[int.clone(), int.clone(), array(a.clone())]));
    shapes.push(of(CALLBACK, &[a.clone(), int.clone()]));
    shapes.push(of(CALLBACK, &[int, a.clone()]));
    shapes.push(array(holding(ANY, &a)));
    shapes.push(below(RESULT, MAX_DEPTH - 1, &a));
    shapes.iter().map(ask).collect()
}

/// The const form of each kind, with room and without, known and new.
fn const_forms() -> Vec<Question> {
    let mut questions: Vec<Question> =
        (0..=FN).map(|kind| Question::into_const(&[0, 0], NO_NAMES, false, kind.into())).collect();
    let mut shapes: Vec<Shape> =
        (ARRAY..=CALLBACK).map(|kind| over(kind, &vec![INT; fewest(kind)])).collect();
    shapes.extend((RECORD..=GENERIC).map(|kind| named(kind, B)));
    for shape in &shapes {
        let (page, [number]) = stored([shape], 6);
        questions.push(Question::into_const(&page, NO_NAMES, false, number.into()));
    }
    for room in [3, 4] {
        questions.push(Question::into_const(&arrays(room), NO_NAMES, false, 21));
    }
    let (page, [plain, _]) = stored([&over(SET, &[INT]), &over(CSET, &[INT])], 0);
    questions.push(Question::into_const(&page, NO_NAMES, false, plain.into()));
    let (page, [callback]) = stored([&over(CALLBACK, &[INT])], 0);
    for checked in [FUNCTION + u32::from(callback), FUNCTION, UNKNOWN, u32::MAX] {
        questions.push(Question::into_const(&page, NO_NAMES, false, checked));
    }
    // Known and a Function of one number are told apart.
    let (page, [_, callback]) = stored([&over(CALLBACK, &[INT]), &over(CALLBACK, &[1, 5])], 0);
    let callback = u32::from(callback);
    for checked in [callback, FUNCTION + callback, FUNCTION + callback - 1, UNKNOWN + callback] {
        questions.push(Question::into_const(&page, NO_NAMES, false, checked));
    }
    questions
}

/// A and B, each kind of holder over them, and what A and B are bound to.
fn substitutions() -> Vec<Question> {
    let (a, b, int) = (generic(A), generic(B), fixed(INT));
    let shapes = [
        int.clone(),
        a.clone(),
        generic(7),
        named(RECORD, A),
        array(a.clone()),
        of(CARRAY, &[array(a.clone())]),
        holding(SET, &b),
        holding(CSET, &a),
        holding(RESULT, &a),
        holding(CRESULT, &b),
        of(MAP, &[b.clone(), a.clone()]),
        of(CMAP, &[array(a.clone()), array(b.clone())]),
        of(TUPLE, &[a.clone(), int.clone(), array(b.clone()), a.clone()]),
        holding(CTUPLE, &a),
        of(CALLBACK, &[array(b.clone()), array(a.clone())]),
        holding(ANY, &a),
        of(TUPLE, &[holding(CANY, &a), b]),
    ];
    let mut questions = Vec::new();
    for (place, shape) in shapes.iter().enumerate() {
        let to = [&over(TUPLE, &[INT]), &array(a.clone()), &int, &over(ANY, &[INT])];
        let (page, [number, first, second]) =
            stored([shape, to[place % 4], to[(place + 1) % 4]], 30);
        let bound = bindings(&[(B, first), (A, second)]);
        questions.push(Question::substitute(&page, NO_NAMES, false, number.into(), &bound));
    }
    let (page, [number]) = stored([&of(TUPLE, &[array(a.clone()), holding(SET, &a)])], 12);
    for bound in [bindings(&[]), bindings(&[(A, 19)]), bindings(&[(B, 1)])] {
        questions.push(Question::substitute(&page, NO_NAMES, false, number.into(), &bound));
    }
    questions.extend(cramped_substitutions());
    questions
}

/// Three types to enter on a page with room for none, one, two or all, to the byte.
fn cramped_substitutions() -> Vec<Question> {
    let a = generic(A);
    let (page, [number]) = stored([&of(TUPLE, &[array(a.clone()), holding(SET, &a)])], 0);
    let own = used(&page);
    let ask = |room: usize| {
        let page = [&page[..], &vec![0; room]].concat();
        assert_eq!(used(&page), own);
        Question::substitute(&page, NO_NAMES, false, number.into(), &bindings(&[(A, 5)]))
    };
    [0, 4, 8, 13, 14, 15].map(ask).to_vec()
}

/// A generic bound to a type that makes the whole 32 or 33 deep, with room and without.
fn deep_substitutions() -> Vec<Question> {
    let mut questions = Vec::new();
    for (holders, bound) in [(1, 31), (1, 32), (16, 16), (15, 18)] {
        let holder = below(ARRAY, holders, &generic(A));
        let (page, [number, to]) = stored([&holder, &below(ARRAY, bound - 1, &fixed(INT))], 0);
        for room in [0, 4, 70] {
            let page = [&page[..], &vec![0; room]].concat();
            let bound = bindings(&[(A, to)]);
            questions.push(Question::substitute(&page, NO_NAMES, false, number.into(), &bound));
        }
    }
    questions
}

/// Names in form and broken, which matter only where they are lent, beside stores
/// whose names are among them and not.
fn names_beside() -> Vec<Question> {
    let page = arrays(4);
    let (two, broken) = (table_on(&["a", "b"], 0), table_on(&["a", "a"], 0));
    let none = table_on(&[], 0);
    let mut questions = Vec::new();
    for names in [&two, &broken, &none] {
        questions.extend(each(&page, names, true));
    }
    for (place, broken) in [&b""[..], b"\0", b"\0\x01\x012", b"\0\0\x01"].into_iter().enumerate() {
        questions.extend(some(place, &page, broken, true));
        questions.extend(some(place + 4, &page, broken, false));
    }
    // Without any name a store without named types is in form.
    questions.extend(some(1, &page_of(&[Entry::of(ARRAY, &[1])], 9), &none, true));
    for count in [MAX_NAMES - 1, MAX_NAMES] {
        let names = table(&shortest_names(count));
        let entry = Entry::named(HANDLE, 255);
        questions.push(Question::make_type(&page, &names, true, &entry));
        let page = page_of(&[Entry::named(HANDLE, 255)], 0);
        questions.push(Question::read_type(&page, &names, true, FIRST));
    }
    questions
}

/// Numbers in use and not, in every place.
fn numbers() -> Vec<Question> {
    let (page, [callback, other]) = stored([&over(CALLBACK, &[INT]), &array(generic(A))], 0);
    let (callback, other) = (u32::from(callback), u32::from(other));
    let bound = bindings(&[]);
    let mut questions = Vec::new();
    for number in [other, other + 1, 65_535, 65_537, u32::MAX] {
        questions.push(Question::read_type(&page, NO_NAMES, false, number));
        questions.push(Question::has_generic(&page, NO_NAMES, false, number));
    }
    for number in [other + 1, FUNCTION + 1] {
        questions.push(Question::substitute(&page, NO_NAMES, false, number, &bound));
    }
    for number in [other + 1, FUNCTION + other, FUNCTION + other + 1] {
        questions.push(Question::into_const(&page, NO_NAMES, false, number));
        questions.push(Question::matches(&page, NO_NAMES, false, number, other));
        questions.push(Question::matches(&page, NO_NAMES, false, other, number));
        questions.push(Question::matches(&page, NO_NAMES, false, UNKNOWN, number));
        questions.push(Question::unify(&page, NO_NAMES, false, [number, 1], &bound));
        questions.push(Question::unify(&page, NO_NAMES, false, [1, number], &bound));
        questions.push(Question::unify_arg(&page, NO_NAMES, false, [number, UNKNOWN], &bound));
        questions.push(Question::unify_arg(&page, NO_NAMES, false, [callback, number], &bound));
    }
    questions
}

/// The lowest number first, wherever each fault stands.
fn refusals_at_once() -> Vec<Question> {
    let (names, broken_names) = (table_on(&["a"], 0), table_on(&["a", "a"], 0));
    let (good, broken) = (arrays(0), [&arrays(0)[..], &[1]].concat());
    let wrong = [
        Entry { kind: 38, children: vec![99], name: 9 },
        Entry { kind: ARRAY, children: vec![99, 1], name: 9 },
        Entry { kind: RECORD, children: vec![1], name: 9 },
        Entry { kind: RECORD, children: vec![1], name: A },
        Entry { kind: SET, children: vec![1], name: 9 },
    ];
    let mut questions = Vec::new();
    for (page, names) in [(&good, &names), (&good, &broken_names), (&broken, &names)] {
        for entry in &wrong {
            questions.push(Question::make_type(page, names, true, entry));
        }
        let bound = bindings(&[(A, 99)]);
        questions.push(Question::unify(page, names, true, [99, 99], &bound));
        questions.push(Question::substitute(page, names, true, 99, &bindings(&[(A, 1)])));
    }
    questions
}
