//! What an index answers.

use super::matching::{Checked, Matching, ARRAY, MAP, NULL, SET, TUPLE, UNION};
use crate::limits::MAX_CHILDREN;
use crate::types::store::Entry;

/// The reasons of errors.
const SOME_FAIL: u8 = 7;
const NO_MEMBER: u8 = 8;
const MAP_KEY: u8 = 9;
const NOT_INDEXABLE: u8 = 10;

/// The types that are answered, merged, none where it is Unknown; the error's reason, and which
/// members fail.
#[derive(Default)]
pub struct Indexed {
    pub results: Vec<u16>,
    reason: Option<u8>,
    failing: Vec<u16>,
}

impl Indexed {
    fn failed(reason: u8) -> Self {
        Self { reason: Some(reason), ..Self::default() }
    }

    /// How many errors, the reasons of two, how many members fail, and the first of them.
    pub fn errors(&self) -> Vec<u8> {
        let first = self.failing.first().copied().unwrap_or(0);
        let mut bytes = vec![self.reason.is_some().into(), self.reason.unwrap_or(0), 0];
        bytes.extend((self.failing.len() as u32).to_be_bytes());
        bytes.extend(first.to_be_bytes());
        bytes.extend([0, 0]);
        bytes
    }
}

/// Any of these; `None` where they are too many for a union.
pub fn union_of(results: &[u16]) -> Option<Entry> {
    (results.len() <= MAX_CHILDREN).then(|| Entry::of(UNION[0], results))
}

pub struct Indexing<'a> {
    matching: Matching<'a>,
    key: Checked,
}

impl<'a> Indexing<'a> {
    pub fn new(entries: &'a [Entry], key: Checked) -> Self {
        Self { matching: Matching::new(entries), key }
    }

    pub fn check_index(&mut self, target: Checked) -> Indexed {
        match target {
            Checked::Unknown => Indexed::default(),
            Checked::Function(_) => Indexed::failed(NOT_INDEXABLE),
            Checked::Known(t) if self.is_union(t) => self.index_any(t),
            Checked::Known(t) => {
                let (result, reason) = self.index_target(t);
                Indexed { results: Vec::from_iter(result), reason, failing: Vec::new() }
            }
        }
    }

    fn is_union(&self, number: u16) -> bool {
        UNION.contains(&self.matching.entry(number).kind)
    }

    /// The type that is answered and the error's reason: an array and a set answer their element,
    /// a map its value, whose key must match; Null and tuples answer Unknown.
    fn index_target(&mut self, number: u16) -> (Option<u16>, Option<u8>) {
        let Entry { kind, children, .. } = self.matching.entry(number);
        if ARRAY.contains(kind) || SET.contains(kind) {
            (Some(children[0]), None)
        } else if MAP.contains(kind) {
            let fits = self.matching.checked_matches(self.key, Checked::Known(children[0]));
            (Some(children[1]), (!fits).then_some(MAP_KEY))
        } else if number == NULL || TUPLE.contains(kind) {
            (None, None)
        } else {
            (None, Some(NOT_INDEXABLE))
        }
    }

    /// Each member of a union, flattened one level, is indexed; one to Unknown fails.
    fn index_any(&mut self, union: u16) -> Indexed {
        let (mut results, mut failing) = (Vec::new(), Vec::new());
        for member in self.flattened(union) {
            match self.index_target(member) {
                (Some(result), None) if results.contains(&result) => {}
                (Some(result), None) => results.push(result),
                _ => failing.push(member),
            }
        }
        if !failing.is_empty() {
            Indexed { failing, ..Indexed::failed(SOME_FAIL) }
        } else if results.is_empty() {
            Indexed::failed(NO_MEMBER)
        } else {
            Indexed { results, ..Indexed::default() }
        }
    }

    /// The members of a union, those of a union among them in its place.
    fn flattened(&self, union: u16) -> Vec<u16> {
        let members = |number: u16| self.matching.entry(number).children.clone();
        let inner = |member: u16| match self.is_union(member) {
            true => members(member),
            false => vec![member],
        };
        members(union).into_iter().flat_map(inner).collect()
    }
}
