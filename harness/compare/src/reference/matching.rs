//! When one type may stand for another: a function for each rule of the definition, by its name.

use crate::types::store::{Entry, GENERIC};

pub const NULL: u16 = 0;
const HANDLE_INFER: u8 = 17;
const FN: u8 = 18;
const HANDLE: u8 = 36;

/// A kind and its const form.
pub const INT: [u8; 2] = [1, 2];
pub const BYTE: [u8; 2] = [11, 12];
pub const ARRAY: [u8; 2] = [19, 20];
pub const SET: [u8; 2] = [21, 22];
pub const RESULT: [u8; 2] = [23, 24];
pub const MAP: [u8; 2] = [25, 26];
pub const TUPLE: [u8; 2] = [27, 28];
pub const UNION: [u8; 2] = [29, 30];
const RECORD: [u8; 2] = [32, 33];
const ENUM: [u8; 2] = [34, 35];

/// Whether both types are of one of the two kinds.
pub fn both(kinds: [u8; 2], a: &Entry, b: &Entry) -> bool {
    kinds.contains(&a.kind) && kinds.contains(&b.kind)
}

/// A checked type.
#[derive(Debug, Clone, Copy)]
pub enum Checked {
    Known(u16),
    Unknown,
    Function(u16),
}

/// The rules that look at children's children.
#[derive(Clone, Copy)]
enum Rule {
    ArrayElision,
    MapElision,
    Matches,
}

/// How many there are.
const RULES: usize = 3;

/// The types of a store by their numbers, and every answer so far, by rule and pair.
pub struct Matching<'a> {
    entries: &'a [Entry],
    answers: Vec<Option<bool>>,
}

impl<'a> Matching<'a> {
    pub fn new(entries: &'a [Entry]) -> Self {
        Self { entries, answers: vec![None; RULES * entries.len() * entries.len()] }
    }

    pub fn entry(&self, number: u16) -> &'a Entry {
        &self.entries[usize::from(number)]
    }

    /// The answer of a rule for a pair, which is found once.
    fn answer(&mut self, rule: Rule, a: u16, b: u16) -> bool {
        let place = (rule as usize * self.entries.len() + usize::from(a)) * self.entries.len()
            + usize::from(b);
        if let Some(answer) = self.answers[place] {
            return answer;
        }
        let (x, y) = (self.entry(a), self.entry(b));
        let answer = match rule {
            Rule::ArrayElision => self.array_elision(x, y),
            Rule::MapElision => self.map_elision(x, y),
            Rule::Matches => self.plain_matches(a, b) || self.any_rule(a, b),
        };
        self.answers[place] = Some(answer);
        answer
    }

    /// Whether a known type stands for another.
    pub fn matches(&mut self, a: u16, b: u16) -> bool {
        self.answer(Rule::Matches, a, b)
    }

    /// Whether a checked type stands for another.
    pub fn checked_matches(&mut self, actual: Checked, expected: Checked) -> bool {
        match (actual, expected) {
            (Checked::Unknown, _) | (_, Checked::Unknown) => true,
            (Checked::Known(a), Checked::Known(b)) => self.matches(a, b),
            (Checked::Function(f), Checked::Function(g)) => f == g,
            (Checked::Function(_), Checked::Known(b)) => {
                [GENERIC, FN].contains(&self.entry(b).kind)
            }
            (Checked::Known(a), Checked::Function(_)) => {
                a == NULL || [GENERIC, FN].contains(&self.entry(a).kind)
            }
        }
    }

    /// Of arrays and of tuples, every pair of shared children has Null on a side, or is elided.
    fn array_elision(&mut self, a: &Entry, b: &Entry) -> bool {
        let mut pairs = a.children.iter().zip(&b.children);
        (both(ARRAY, a, b) || both(TUPLE, a, b))
            && pairs.all(|(&x, &y)| x == NULL || y == NULL || self.answer(Rule::ArrayElision, x, y))
    }

    /// Of maps, likewise the keys and the values, which may be arrays, tuples or maps.
    fn map_elision(&mut self, a: &Entry, b: &Entry) -> bool {
        let mut pairs = a.children.iter().zip(&b.children);
        both(MAP, a, b)
            && pairs.all(|(&x, &y)| {
                x == NULL
                    || y == NULL
                    || self.answer(Rule::ArrayElision, x, y)
                    || self.answer(Rule::MapElision, x, y)
            })
    }

    /// By a rule other than that of unions.
    fn plain_matches(&mut self, a: u16, b: u16) -> bool {
        let (x, y) = (self.entry(a), self.entry(b));
        let wild = a == NULL || x.kind == GENERIC || y.kind == GENERIC;
        wild || a == b
            || self.answer(Rule::ArrayElision, a, b)
            || self.answer(Rule::MapElision, a, b)
            || flat_matches(x, y)
    }

    /// Every member of a union, or what is no union itself, matches some member of a union.
    fn any_rule(&mut self, a: u16, b: u16) -> bool {
        let (x, y) = (self.entry(a), self.entry(b));
        let actual = if UNION.contains(&x.kind) { &x.children[..] } else { &[a] };
        UNION.contains(&y.kind)
            && actual.iter().all(|&m| y.children.iter().any(|&e| self.matches(m, e)))
    }
}

/// By a rule that looks at no child's children.
fn flat_matches(a: &Entry, b: &Entry) -> bool {
    const_matches(a.kind, b.kind)
        || (both(RECORD, a, b) && a.name == b.name)
        || (both(ENUM, a, b) && a.name == b.name)
        || (both(SET, a, b) && a.children == b.children)
        || handle_matches(a, b)
}

/// A const form for its plain one; of Error and of Array to Tuple the plain one for its const form.
fn const_matches(a: u8, b: u8) -> bool {
    (is_plain(b) && a == b + 1) || (is_plain(a) && (15..=27).contains(&a) && b == a + 1)
}

/// The plain one of two kinds.
fn is_plain(kind: u8) -> bool {
    kind % 2 == 1 && ((1..=15).contains(&kind) || (19..=27).contains(&kind))
}

/// Handles of one name, and HandleInfer with any handle and with itself.
fn handle_matches(a: &Entry, b: &Entry) -> bool {
    match (a.kind, b.kind) {
        (HANDLE, HANDLE) => a.name == b.name,
        (HANDLE | HANDLE_INFER, HANDLE_INFER) | (HANDLE_INFER, HANDLE) => true,
        _ => false,
    }
}
