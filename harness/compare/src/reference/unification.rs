//! Fitting an actual type to an expected one that may bear generic names.

use super::matching::{both, Matching, ARRAY, BYTE, INT, MAP, NULL, RESULT, SET, TUPLE};
use crate::limits::Refusal;
use crate::types::bindings::Bindings;
use crate::types::store::{Entry, GENERIC};
use std::collections::HashSet;

pub struct Unification<'a> {
    matching: Matching<'a>,
    /// The bindings so far, which only grow.
    pub bound: Bindings,
    /// The pairs that were answered yes, and are again whatever is bound since: a no ends the walk.
    settled: HashSet<(u16, u16)>,
}

impl<'a> Unification<'a> {
    pub fn new(entries: &'a [Entry], bound: Bindings) -> Self {
        Self { matching: Matching::new(entries), bound, settled: HashSet::new() }
    }

    pub fn unify(&mut self, expected: u16, actual: u16) -> Result<bool, Refusal> {
        if self.settled.contains(&(expected, actual)) {
            return Ok(true);
        }
        let yes = self.rule(expected, actual)?;
        if yes {
            self.settled.insert((expected, actual));
        }
        Ok(yes)
    }

    fn rule(&mut self, expected: u16, actual: u16) -> Result<bool, Refusal> {
        let (e, a) = (self.matching.entry(expected), self.matching.entry(actual));
        if e.kind == GENERIC {
            self.generic(e.name, actual)
        } else if both(ARRAY, e, a) && self.is_adopted(e.children[0], a.children[0]) {
            Ok(true)
        } else if [ARRAY, SET, RESULT, MAP, TUPLE].into_iter().any(|kinds| both(kinds, e, a)) {
            self.all_pairs(e, a)
        } else {
            Ok(self.matching.matches(expected, actual))
        }
    }

    /// What the name is bound to must match; an unbound name is bound.
    fn generic(&mut self, name: u8, actual: u16) -> Result<bool, Refusal> {
        match self.bound.get(name) {
            Some(bound) => Ok(self.matching.matches(bound, actual)),
            None => self.bound.push(name, actual).map(|()| true),
        }
    }

    /// Whether an array of the one takes an array of the other: of Null, or of integers for bytes.
    fn is_adopted(&self, expected: u16, actual: u16) -> bool {
        let [e, a] = [expected, actual].map(|child| self.matching.entry(child).kind);
        actual == NULL || (BYTE.contains(&e) && INT.contains(&a))
    }

    /// As many children, and each pair of them in order.
    fn all_pairs(&mut self, e: &Entry, a: &Entry) -> Result<bool, Refusal> {
        if e.children.len() != a.children.len() {
            return Ok(false);
        }
        for (&expected, &actual) in e.children.iter().zip(&a.children) {
            if !self.unify(expected, actual)? {
                return Ok(false);
            }
        }
        Ok(true)
    }
}
