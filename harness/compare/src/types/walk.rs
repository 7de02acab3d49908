//! The walk of `unify`: which names it binds, in which order, and where it meets
//! one too many. The oracle keeps its bindings without order and without limit.

use super::bindings::Bindings;
use super::store::{Entry, CALLBACK, GENERIC};
use super::Tables;
use crate::limits::Refusal;

const NULL: u16 = 0;

/// Whether an array of one takes an array of the other: bytes take integers.
fn coerces(expected: u16, actual: u16) -> bool {
    matches!((expected, actual), (11 | 12, 1 | 2))
}

/// Whether both kinds are arrays, sets, results, maps or tuples, const or not.
fn same_family(expected: u8, actual: u8) -> bool {
    let family = |kind: u8| (19..=28).contains(&kind).then(|| (kind - 19) / 2);
    family(expected).is_some() && family(expected) == family(actual)
}

pub struct Walk<'a> {
    pub tables: &'a Tables,
    pub bound: Bindings,
}

impl Walk<'_> {
    pub fn unify(&mut self, expected: u16, actual: u16) -> Result<bool, Refusal> {
        let (e, a) = (self.tables.store.entry(expected), self.tables.store.entry(actual));
        if e.kind == GENERIC {
            return match self.bound.get(e.name) {
                Some(bound) => Ok(self.tables.known_matches(bound, actual)),
                None => self.bound.push(e.name, actual).map(|()| true),
            };
        }
        if !same_family(e.kind, a.kind) {
            return Ok(self.tables.known_matches(expected, actual));
        }
        let arrays = e.kind <= 20;
        if arrays && (a.children[0] == NULL || coerces(e.children[0], a.children[0])) {
            return Ok(true);
        }
        self.children(&e, &a)
    }

    /// A Callback against a Function, child by child.
    pub fn unify_function(&mut self, expected: u16, actual: u16) -> Result<bool, Refusal> {
        let (e, a) = (self.tables.store.entry(expected), self.tables.store.entry(actual));
        assert_eq!((e.kind, a.kind), (CALLBACK, CALLBACK));
        self.children(&e, &a)
    }

    /// As many children, and each unified, the first that is not ending it.
    fn children(&mut self, expected: &Entry, actual: &Entry) -> Result<bool, Refusal> {
        if expected.children.len() != actual.children.len() {
            return Ok(false);
        }
        for (&e, &a) in expected.children.iter().zip(&actual.children) {
            if !self.unify(e, a)? {
                return Ok(false);
            }
        }
        Ok(true)
    }
}
