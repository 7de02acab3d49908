//! Two pairs of types a level, sixteen children wide, numbered so far apart that a table with a
//! place for (131 a + b) mod 8,192 has one place for the two, and one further apart.

use crate::types::{rust_matches, tuples};
use crate::{timed, PAGE_BYTES};
use compare::exports::riddlepoppy_matches;
use compare::inputs::types::shapes::{FLOAT, INT, NULL, TUPLE};
use compare::limits::{FIXED_TYPES, MAX_CHILDREN};
use compare::types::store::{page_of, Entry};
use rl_ast::statements::TypeAnnotation as Type;
use std::ptr::dangling;
use std::rc::Rc;

/// 131 a + b is the same of the pairs (a, b) and (a + 1, c) where b is so far above c.
const APART: usize = 131;

pub fn measure() {
    for depth in [5, 6, 7, 8, 30] {
        let [one, other] = [APART, APART + 1].map(|apart| matched(depth, apart));
        let rust = match depth {
            5..=7 => format!(", the Rust {:.1} ms", rust_matched(depth)),
            _ => String::new(),
        };
        println!(
            "matches, two pairs a level, sixteen children wide, {depth} deep: \
             numbered 131 apart {one:.1} ms, 132 apart {other:.1} ms{rust}"
        );
    }
}

/// Milliseconds for `matches` where each level has two pairs, by turns the children of both pairs
/// above, whose right types are numbered so far apart.
fn matched(depth: usize, apart: usize) -> f64 {
    let mut entries = Vec::new();
    let mut others = tuples().into_iter();
    let mut left = [NULL, INT].map(u16::from);
    let mut right = [FLOAT, NULL].map(u16::from);
    for _ in 0..depth {
        let second = entered(&mut entries, [right[1], right[0]]);
        entries.extend(others.by_ref().take(apart - 3));
        left = [left, [left[1], left[0]]].map(|children| entered(&mut entries, children));
        right = [entered(&mut entries, right), second];
    }
    let page = page_of(&entries, PAGE_BYTES);
    let (p, n, a, b) = (page.as_ptr(), page.len(), left[0].into(), right[0].into());
    // SAFETY: the pointer goes with its length.
    let time = timed(1, || unsafe {
        assert_eq!(riddlepoppy_matches(p, n, dangling(), 0, false, a, b), 1);
    });
    time / 1e6
}

/// Enters a tuple of sixteen children, two by turns.
fn entered(entries: &mut Vec<Entry>, children: [u16; 2]) -> u16 {
    entries.push(Entry::of(TUPLE, &children.repeat(MAX_CHILDREN / 2)));
    (FIXED_TYPES + entries.len() - 1) as u16
}

/// Milliseconds for the Rust's `matches` on the same types.
fn rust_matched(depth: usize) -> f64 {
    let tuple = |children: [&Type; 2]| {
        let two = children.map(Type::clone);
        Type::Tuple(Rc::new(two.iter().cycle().take(MAX_CHILDREN).cloned().collect()))
    };
    let sides = [[Type::Null, Type::Int], [Type::Float, Type::Null]];
    let [left, right] = sides.map(|leaves| {
        let [top, _] = (0..depth).fold(leaves, |[a, b], _| [tuple([&a, &b]), tuple([&b, &a])]);
        top
    });
    rust_matches(left, right, true) / 1e3
}
