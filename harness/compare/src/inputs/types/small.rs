//! All pairs of small types under every call, and every small type with and without room.

use super::shapes::{
    array, bindings, enter, fixed, generic, named, of, over, small, stored, used, Shape, A, ANY, B,
    CALLBACK, INT, NULL, RECORD, TUPLE,
};
use crate::call::Question;
use crate::inputs::Sink;
use crate::limits::{BINDINGS_BYTES, FUNCTION, MAX_BINDINGS, UNKNOWN};
use crate::types::store::Store;

/// Names that are not lent.
const NO_NAMES: &[u8] = b"";

/// Of so many actual types one is asked with nearly all bindings taken.
const FULL_STEP: usize = 6;

pub fn questions(ask: Sink) {
    let shapes = small();
    for (place, expected) in shapes.iter().enumerate() {
        alone(expected, ask);
        for (other, actual) in shapes.iter().enumerate() {
            let (page, [e, a]) = stored([expected, actual], 0);
            ask(Question::matches(&page, NO_NAMES, false, a.into(), e.into()));
            functions(&page, [expected, actual], [e.into(), a.into()], ask);
            let few = (place + other) % FULL_STEP == 0;
            unify(&page, [expected, actual], [e, a], few, ask);
            let bound = bindings(&[(A, a)]);
            ask(Question::unify_arg(&page, NO_NAMES, false, [e.into(), a.into()], &bound));
        }
    }
}

/// What is asked where one type or both are those of Functions.
fn functions(page: &[u8], shapes: [&Shape; 2], [e, a]: [u32; 2], ask: Sink) {
    let [expected, actual] = shapes.map(|shape| shape.kind == CALLBACK);
    if expected {
        ask(Question::matches(page, NO_NAMES, false, a, FUNCTION + e));
    }
    if actual {
        ask(Question::matches(page, NO_NAMES, false, FUNCTION + a, e));
        for bound in [bindings(&[]), bindings(&[(A, INT.into())]), taken(MAX_BINDINGS)] {
            ask(Question::unify_arg(page, NO_NAMES, false, [e, FUNCTION + a], &bound));
        }
    }
    if expected && actual {
        ask(Question::matches(page, NO_NAMES, false, FUNCTION + a, FUNCTION + e));
    }
}

/// So many bindings, of names that no small type has.
fn taken(count: usize) -> [u8; BINDINGS_BYTES] {
    let bound: Vec<(u8, u16)> = (0..count as u8).map(|place| (100 + place, 1)).collect();
    bindings(&bound)
}

/// Two types with several bindings beforehand: none, to the actual type, to others.
fn unify(page: &[u8], [expected, actual]: [&Shape; 2], [e, a]: [u16; 2], few: bool, ask: Sink) {
    let mut states = vec![bindings(&[])];
    if expected.has_generic() {
        states.push(bindings(&[(A, a)]));
        states.push(bindings(&[(B, NULL.into()), (A, INT.into())]));
        if let Some(child) = actual.children.first() {
            let mut store = Store::read(page, 256).expect("in form");
            states.push(bindings(&[(A, enter(&mut store, child))]));
        }
        if few {
            states.extend([taken(MAX_BINDINGS - 1), taken(MAX_BINDINGS)]);
        }
    }
    for bound in &states {
        ask(Question::unify(page, NO_NAMES, false, [e.into(), a.into()], bound));
    }
}

/// The calls about a single type, and it against Unknown.
fn alone(shape: &Shape, ask: Sink) {
    let (page, [number]) = stored([shape], 0);
    let number = u32::from(number);
    let function = FUNCTION + number;
    for unknown in [UNKNOWN, UNKNOWN + number, u32::MAX] {
        for checked in [number, function, unknown] {
            ask(Question::matches(&page, NO_NAMES, false, checked, unknown));
            ask(Question::matches(&page, NO_NAMES, false, unknown, checked));
        }
        for bound in [bindings(&[]), taken(MAX_BINDINGS)] {
            ask(Question::unify_arg(&page, NO_NAMES, false, [number, unknown], &bound));
            ask(Question::unify_arg(&page, NO_NAMES, false, [number, function], &bound));
        }
        ask(Question::into_const(&page, NO_NAMES, false, unknown));
    }
    ask(Question::read_type(&page, NO_NAMES, false, number));
    ask(Question::has_generic(&page, NO_NAMES, false, number));
    ask(Question::into_const(&page, NO_NAMES, false, function));
    with_rooms(&page, |page| Question::into_const(page, NO_NAMES, false, number), ask);
    substitutions(shape, ask);
}

/// What the two names may be bound to, the type's own names among them.
fn replacements() -> Vec<(Shape, Shape)> {
    vec![
        (fixed(INT), fixed(NULL)),
        (generic(A), generic(A)),
        (generic(B), generic(A)),
        (array(generic(A)), fixed(INT)),
        (over(ANY, &[INT]), named(RECORD, B)),
        (of(TUPLE, &[generic(B), over(ANY, &[INT, NULL])]), array(array(fixed(INT)))),
        (over(CALLBACK, &[INT]), over(TUPLE, &[])),
    ]
}

/// Neither name bound, one or both.
fn substitutions(shape: &Shape, ask: Sink) {
    for (a, b) in replacements() {
        let (page, [number, a, b]) = stored([shape, &a, &b], 0);
        for bound in [bindings(&[]), bindings(&[(A, a)]), bindings(&[(B, b), (9, a), (A, a)])] {
            let ask_on =
                |page: &[u8]| Question::substitute(page, NO_NAMES, false, number.into(), &bound);
            with_rooms(&page, ask_on, ask);
        }
    }
}

/// A question on a page with much room, then, where it enters types, with just
/// enough, a byte less, a byte more, and with none.
pub fn with_rooms(page: &[u8], question: impl Fn(&[u8]) -> Question, ask: Sink) {
    let own = page.len();
    let with_length = |length: usize| {
        let mut page = page.to_vec();
        page.resize(length, 0);
        question(&page)
    };
    let needed = used(&ask(with_length(own + 200)).page);
    ask(with_length(own));
    if needed > own {
        for length in [needed - 1, needed, needed + 1] {
            ask(with_length(length));
        }
    }
}
