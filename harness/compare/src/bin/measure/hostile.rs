//! Stores that make a comparison long, and the form of a full one.

use crate::types::tuples as full_store;
use crate::{timed, PAGE_BYTES};
use compare::call::{Answer, Operand, Pages, Question};
use compare::exports::{
    riddlepoppy_check_index, riddlepoppy_has_generic, riddlepoppy_matches, riddlepoppy_unify,
};
use compare::inputs::names::table;
use compare::inputs::types::hostile::{self, Hostile};
use compare::inputs::types::shapes::{bindings, CINT, INT, NULL, TUPLE, UINT};
use compare::limits::{ANSWER_BYTES, FIXED_TYPES, MAX_NAMES, NO_UNIT};
use compare::reference::expected;
use compare::types::store::{page_of, Entry, Store};
use std::ptr::dangling;

/// How often a call is timed that is done in less than a millisecond; others once.
const SHORT_CALLS: u32 = 1_000;
const SHORT: f64 = 1e6;

pub fn measure() {
    forms();
    let tuples =
        Asked::new("tuples of sixteen, ten a side and level, 16 levels", hostile::tuples());
    tuples.matches();
    tuples.unify();
    Asked::new("unions of sixteen, nine a side and level, 20 levels", hostile::unions()).matches();
    Asked::new(
        "unions over tuples that fail in their last child, 14 levels",
        hostile::failing_tuples(),
    )
    .matches();
    Asked::new("sixteen maps keyed by unions, 63 a side and level, 8 levels", hostile::keys())
        .check_index();
    Asked::new("1,400 unions of arrays, each with each", hostile::unions_of_arrays()).matches();
    Asked::new("1,370 unions of unions, each with each", hostile::unions_two_deep()).matches();
    Asked::new("760 unions with 860 that hold such", hostile::many_containers()).matches();
    Asked::new("1,300 tuples, each with each", hostile::tuples_below()).matches();
    Asked::new("3,400 short tuples, each with each", hostile::short_tuples()).matches();
    Asked::new("3,364 maps, each with each", hostile::many_maps()).matches();
    let ladder = Asked::new("1,651 unions over a ladder, each with each", hostile::ladder());
    ladder.matches();
    ladder.unify();
}

/// Nanoseconds for one call.
fn time(mut call: impl FnMut()) -> f64 {
    match timed(1, &mut call) {
        short if short < SHORT => timed(SHORT_CALLS, call),
        long => long,
    }
}

/// A time in words.
fn words(time: f64) -> String {
    match time {
        _ if time < 1e6 => format!("{:.1} µs", time / 1e3),
        _ if time < 1e9 => format!("{:.1} ms", time / 1e6),
        _ => format!("{:.2} s", time / 1e9),
    }
}

// ---- Comparisons ----

/// A store on its page, and two types of it, of which the library must answer what the reference
/// does.
struct Asked {
    what: &'static str,
    /// How many types and bytes the store has.
    size: [usize; 2],
    page: Vec<u8>,
    actual: u32,
    expected: u32,
}

impl Asked {
    fn new(what: &'static str, Hostile { store, actual, expected }: Hostile) -> Self {
        let size = [store.count(), store.write(0).len()];
        let page = store.write(PAGE_BYTES);
        Self { what, size, page, actual: actual.into(), expected: expected.into() }
    }

    fn print(&self, call: &str, time: f64, answer: &str) {
        let [types, bytes] = self.size;
        let (what, time) = (self.what, words(time));
        println!("{call}, {what}: {types} types, {bytes} bytes, {time}, {answer}");
    }

    fn matches(&self) {
        let Self { page, actual, expected: other, .. } = self;
        let answer = expected(&Question::matches(page, b"", false, *actual, *other));
        let (p, n) = (page.as_ptr(), page.len());
        // SAFETY: the pointer goes with its length.
        let time = time(|| unsafe {
            let code = riddlepoppy_matches(p, n, dangling(), 0, false, *actual, *other);
            assert_eq!(code, returned(&answer));
        });
        self.print("matches", time, if answer.value == 1 { "yes" } else { "no" });
    }

    /// No name is bound. The actual type comes first, as the expected one: where `unify` asks
    /// whether types match, it puts the expected one in the actual one's place.
    fn unify(&self) {
        let Self { page, actual, expected: other, .. } = self;
        let mut bound = bindings(&[]);
        let answer = expected(&Question::unify(page, b"", false, [*actual, *other], &bound));
        let (p, n, b) = (page.as_ptr(), page.len(), bound.as_mut_ptr());
        // SAFETY: the pointer goes with its length, and the bindings have theirs.
        let time = time(|| unsafe {
            let code = riddlepoppy_unify(p, n, dangling(), 0, false, *actual, *other, b);
            assert_eq!(code, returned(&answer));
        });
        self.print("unify", time, if answer.value == 1 { "yes" } else { "no" });
    }

    fn check_index(&self) {
        let Self { page, actual, expected: other, .. } = self;
        let pages = Pages { store: page, names: b"", lent: false, pairs: b"" };
        let target = Operand { checked: *other, unit: &NO_UNIT };
        let answer = expected(&Question::check_index(pages, target, *actual));
        let (mut page, mut out) = (page.clone(), [0; ANSWER_BYTES]);
        let (p, n, o) = (page.as_mut_ptr(), page.len(), out.as_mut_ptr());
        let (u, l) = (NO_UNIT.as_ptr(), NO_UNIT.len());
        // SAFETY: each pointer goes with its length, and `out` has the length that is written.
        let time = time(|| unsafe {
            let code =
                riddlepoppy_check_index(p, n, dangling(), 0, false, *other, u, l, *actual, o);
            assert_eq!(code, returned(&answer));
        });
        assert_eq!((&out[..], page), (&answer.out[..], answer.page), "the index");
        let [failing, reason] = [answer.out[6], answer.out[1]];
        self.print("check_index", time, &format!("reason {reason}, {failing} members fail"));
    }
}

/// What a call returns that answers so.
fn returned(answer: &Answer) -> u32 {
    answer.refusal << 16 | answer.value
}

// ---- The form alone ----

/// Names that differ in their last two bytes, each of so many, in a page of 65,536 bytes.
fn names(length: usize) -> Vec<u8> {
    let letter = |number: usize| b'a' + number as u8;
    let name = |number: usize| {
        let last = [letter(number / 16), letter(number % 16)];
        [vec![b'n'; length - last.len()], last.to_vec()].concat()
    };
    let mut page = table(&(0..MAX_NAMES).map(name).collect::<Vec<_>>());
    page.resize(PAGE_BYTES, 0);
    page
}

/// A call that has little to do beside testing the form of a full store, `has_generic` of Int, and
/// `matches` on a store of three types, each without names and with 256 names lent.
fn forms() {
    let full = page_of(&full_store(), PAGE_BYTES);
    let [null, int] = [[NULL, UINT], [INT, UINT]].map(|kinds| kinds.map(u16::from));
    let tuples =
        [Entry::of(TUPLE, &null), Entry::of(TUPLE, &int), Entry::of(TUPLE, &[CINT.into()])];
    let few = page_of(&tuples, PAGE_BYTES);
    form("no names lent", &full, &few, &[]);
    form("256 names of 8 bytes lent", &full, &few, &names(8));
    form("256 names of 31 bytes lent", &full, &few, &names(31));
}

/// The two calls with these names, which are lent if there are any.
fn form(what: &str, full: &[u8], few: &[u8], names: &[u8]) {
    let (t, k, lent) = (names.as_ptr(), names.len(), !names.is_empty());
    let first = FIXED_TYPES as u32;
    // SAFETY: each pointer goes with its length.
    let tested = time(|| unsafe {
        let code = riddlepoppy_has_generic(full.as_ptr(), full.len(), t, k, lent, INT.into());
        assert_eq!(code, 0);
    });
    // SAFETY: as above.
    let matched = time(|| unsafe {
        let code = riddlepoppy_matches(few.as_ptr(), few.len(), t, k, lent, first, first + 1);
        assert_eq!(code, 0, "Tuple(Null, UInt) against Tuple(Int, UInt)");
    });
    println!("has_generic of Int, {} in 65,536, {what}: {}, no", sized(full), words(tested));
    println!("matches, {} in 65,536, {what}: {}, no", sized(few), words(matched));
}

/// How many types and bytes a page's store has.
fn sized(page: &[u8]) -> String {
    let store = Store::read(page, 0).expect("in form");
    format!("{} types, {} bytes", store.count(), store.write(0).len())
}
