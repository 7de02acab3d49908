//! Formulas: what the two calls about whole formulas are given, what they answer, and what
//! demand 3 claims of them.
//!
//! - `composed`: the same answers out of the calls that answer a single operator or index
//! - `statement`: the claim by brute force, every route walked
//! - `trial`: puts both to pairs of formulas, and counts
//! - `instances`: formulas of which the claim is false, as they miss a hypothesis

pub mod composed;
#[cfg(test)]
mod instances;
pub mod statement;
pub mod trial;

use crate::call::Pages;
use crate::limits::{ANSWER_BYTES, NO_UNIT, PAIR_BYTES};
use crate::types::Tables;
use std::fmt::{self, Write};

/// A node's body, and zeros after a shorter one: the longest is a value with eight symbols.
pub const NODE_BYTES: usize = 28;

pub const MAX_NODES: usize = 256;

/// An answer as the calls of single operators write it, and how many errors there are in all.
pub const FORMULA_BYTES: usize = ANSWER_BYTES + 2;

// Operators' codes.
pub const PLUS: u8 = 1;
pub const MINUS: u8 = 2;
pub const STAR: u8 = 3;
pub const SLASH: u8 = 4;
pub const LESS: u8 = 5;
pub const UNEQUAL: u8 = 10;
pub const AND: u8 = 11;
pub const BANG: u8 = 13;

/// A formula as it is lent: the bytes of its nodes, in form or not, and the root's number.
#[derive(Debug, Clone, PartialEq, Eq, Hash)]
pub struct Formula {
    pub nodes: Vec<u8>,
    pub root: u32,
}

/// A node as its bytes say.
#[derive(Debug, Clone, Copy, PartialEq, Eq)]
pub enum Written<'a> {
    /// A type, and the bytes of a unit as the calls of single operators take them.
    Value {
        ty: u16,
        unit: &'a [u8],
    },
    Unary {
        op: u8,
        operand: u8,
    },
    Binary {
        op: u8,
        left: u8,
        right: u8,
    },
    Index {
        target: u8,
        key: u8,
    },
    Undefined,
}

impl<'a> Written<'a> {
    /// Reads the bytes of a node; those after its body are not looked at.
    pub fn read(bytes: &'a [u8]) -> Self {
        match bytes[0] {
            0 => {
                // Of a unit that says more symbols than there are places the eight that stand
                // there are looked at.
                let end = match bytes[3] {
                    count @ 0..=8 => 4 + 3 * usize::from(count),
                    255 => 4,
                    _ => NODE_BYTES,
                };
                let ty = u16::from_be_bytes([bytes[1], bytes[2]]);
                Self::Value { ty, unit: &bytes[3..end] }
            }
            1 => Self::Unary { op: bytes[1], operand: bytes[2] },
            2 => Self::Binary { op: bytes[1], left: bytes[2], right: bytes[3] },
            3 => Self::Index { target: bytes[1], key: bytes[2] },
            _ => Self::Undefined,
        }
    }

    /// The nodes of a list.
    pub fn all(nodes: &'a [u8]) -> Vec<Self> {
        nodes.chunks_exact(NODE_BYTES).map(Self::read).collect()
    }

    /// The bytes of the node, with `filler` after its body.
    pub fn bytes(&self, filler: u8) -> Vec<u8> {
        let mut bytes = match *self {
            Self::Value { ty, unit } => [&[0][..], &ty.to_be_bytes(), unit].concat(),
            Self::Unary { op, operand } => vec![1, op, operand],
            Self::Binary { op, left, right } => vec![2, op, left, right],
            Self::Index { target, key } => vec![3, target, key],
            Self::Undefined => vec![4],
        };
        bytes.resize(NODE_BYTES, filler);
        bytes
    }

    /// The nodes that it is answered from, a key among them.
    pub fn operands(&self) -> Vec<usize> {
        let numbers = match *self {
            Self::Value { .. } | Self::Undefined => vec![],
            Self::Unary { operand, .. } => vec![operand],
            Self::Binary { left, right, .. } => vec![left, right],
            Self::Index { target, key } => vec![target, key],
        };
        numbers.into_iter().map(usize::from).collect()
    }
}

/// "A formula's nodes are its root and all below it, keys included."
pub fn parts(nodes: &[Written], root: usize) -> Vec<bool> {
    let mut parts = vec![false; nodes.len()];
    let mut left = vec![root];
    while let Some(number) = left.pop() {
        if !parts[number] {
            parts[number] = true;
            left.extend(nodes[number].operands());
        }
    }
    parts
}

/// What `check_formula` answers. A refusal writes nothing: `out` is then empty.
#[derive(Debug, Clone, PartialEq, Eq)]
pub struct Checked {
    pub refusal: u32,
    pub value: u32,
    pub out: Vec<u8>,
    pub store: Vec<u8>,
}

/// What `compare_formulas` answers: 1 for convertible, and the two pages afterwards.
#[derive(Debug, Clone, PartialEq, Eq)]
pub struct Compared {
    pub refusal: u32,
    pub value: u32,
    pub store: Vec<u8>,
    pub pairs: Vec<u8>,
}

impl fmt::Display for Checked {
    fn fmt(&self, formatter: &mut fmt::Formatter) -> fmt::Result {
        let Self { refusal, value, out, store } = self;
        let [out, store] = [out, store].map(|bytes| hexadecimal(bytes));
        write!(formatter, "refusal {refusal} value {value} out [{out}] store [{store}]")
    }
}

impl fmt::Display for Compared {
    fn fmt(&self, formatter: &mut fmt::Formatter) -> fmt::Result {
        let Self { refusal, value, store, pairs } = self;
        let [store, pairs] = [store, pairs].map(|bytes| hexadecimal(bytes));
        write!(formatter, "refusal {refusal} value {value} store [{store}] pairs [{pairs}]")
    }
}

/// Two formulas over one store and one table, and insertions before them.
#[derive(Debug, Clone, PartialEq, Eq, Hash)]
pub struct Case {
    pub store: Vec<u8>,
    pub names: Vec<u8>,
    pub lent: bool,
    pub pairs: Vec<u8>,
    /// P bodies, ten bytes each.
    pub requests: Vec<u8>,
    pub left: Formula,
    pub right: Formula,
}

impl Case {
    pub fn pages(&self) -> Pages<'_> {
        Pages { store: &self.store, names: &self.names, lent: self.lent, pairs: &self.pairs }
    }

    pub fn request_bodies(&self) -> impl Iterator<Item = &[u8]> {
        self.requests.chunks_exact(PAIR_BYTES)
    }

    /// Both formulas as terms, each type as the Rust prints it, and the pairs before them. The
    /// roots' formulas are short, and all is in form.
    pub fn terms(&self) -> String {
        let tables = Tables::read(&self.store, &self.names, self.lent).expect("in form");
        let term = |formula: &Formula| {
            term_text(&tables, &Written::all(&formula.nodes), formula.root as usize)
        };
        let (left, right) = (term(&self.left), term(&self.right));
        format!("{left} and {right}, over pairs {}", self.insertions())
    }

    /// The pairs of the table at the start, and those asked for.
    fn insertions(&self) -> String {
        let symbols = |body: &[u8]| format!("({}, {})", body[0], body[1]);
        let requests: Vec<String> = self.request_bodies().map(symbols).collect();
        format!("{} then {}", start_text(&self.pairs), requests.join(" "))
    }

    /// How many nodes the two formulas have, those of their lists that are no part left out.
    pub fn size(&self) -> usize {
        let size = |formula: &Formula| {
            let parts = parts(&Written::all(&formula.nodes), formula.root as usize);
            parts.into_iter().filter(|&part| part).count()
        };
        size(&self.left) + size(&self.right)
    }

    /// The case as a reader takes it in: insertions as symbol and base, formulas node by node.
    pub fn text(&self) -> String {
        format!(
            "store {} names {} pairs {} | {} | {}",
            hexadecimal(&self.store),
            if self.lent { hexadecimal(&self.names) } else { "all".to_owned() },
            self.insertions(),
            formula_text(&self.left),
            formula_text(&self.right),
        )
    }
}

/// The two calls about whole formulas; an error is what a call did that none may do.
pub trait FormulaCalls {
    fn check_formula(&self, pages: Pages, formula: &Formula) -> Result<Checked, String>;
    fn compare_formulas(&self, case: &Case) -> Result<Compared, String>;
}

fn hexadecimal(bytes: &[u8]) -> String {
    let end = bytes.iter().rposition(|&byte| byte != 0).map_or(0, |last| last + 1);
    bytes[..end].iter().map(|byte| format!("{byte:02x}")).collect()
}

/// The pairs of a table in form, the first twenty of them.
fn start_text(page: &[u8]) -> String {
    let bodies = page.get(2..).unwrap_or_default().chunks_exact(PAIR_BYTES);
    let count = page.get(1).map_or(0, |&low| usize::from(page[0]) << 8 | usize::from(low));
    let shown = bodies.take(count.min(20)).map(|body| format!("({}, {})", body[0], body[1]));
    format!("{count}: {}", shown.collect::<Vec<_>>().join(" "))
}

/// The most characters of a formula that are shown.
const SHOWN: usize = 2_000;

fn formula_text(formula: &Formula) -> String {
    let nodes = Written::all(&formula.nodes);
    let mut text = String::new();
    for (number, node) in nodes.iter().enumerate() {
        let root = if number == formula.root as usize { "*" } else { "" };
        write!(text, " {root}{number}: {};", node_text(node)).expect("a string takes all");
    }
    text.truncate(SHOWN);
    format!("root {}{text}", formula.root)
}

const OPERATORS: [&str; 14] =
    ["?", "+", "-", "*", "/", "<", ">", "<=", ">=", "==", "!=", "and", "or", "!"];

fn node_text(node: &Written) -> String {
    let sign = |op: u8| OPERATORS.get(usize::from(op)).unwrap_or(&"?");
    match *node {
        Written::Value { ty, unit } => format!("T{ty} {}", unit_text(unit)),
        Written::Unary { op, operand } => format!("{} {operand}", sign(op)),
        Written::Binary { op, left, right } => format!("{left} {} {right}", sign(op)),
        Written::Index { target, key } => format!("{target}[{key}]"),
        Written::Undefined => "?".to_owned(),
    }
}

fn term_text(tables: &Tables, nodes: &[Written], node: usize) -> String {
    let term = |number: u8| term_text(tables, nodes, number.into());
    let sign = |op: u8| OPERATORS[usize::from(op)];
    match nodes[node] {
        // The right formula may name a type that the left one enters.
        Written::Value { ty, unit } if tables.in_use(ty.into()).is_ok() => {
            format!("{:?} {}", tables.tree(ty), unit_text(unit))
        }
        value @ Written::Value { .. } => node_text(&value),
        Written::Unary { op, operand } => format!("{}({})", sign(op), term(operand)),
        Written::Binary { op, left, right } => {
            format!("({} {} {})", term(left), sign(op), term(right))
        }
        Written::Index { target, key } => format!("{}[{}]", term(target), term(key)),
        Written::Undefined => "?".to_owned(),
    }
}

fn unit_text(unit: &[u8]) -> String {
    if unit == NO_UNIT {
        return "-".to_owned();
    }
    let terms =
        terms_of(unit).into_iter().map(|(symbol, exponent)| format!("s{symbol}^{exponent}"));
    format!("[{}]", terms.collect::<Vec<_>>().join(" "))
}

/// The terms that a unit's bytes say, without a look at their form.
pub fn terms_of(unit: &[u8]) -> Vec<(u8, i64)> {
    let (count, body) = (unit[0], &unit[1..]);
    if count > 8 {
        return Vec::new();
    }
    let term = |part: &[u8]| (part[0], i64::from(i16::from_be_bytes([part[1], part[2]])));
    body.chunks_exact(3).take(count.into()).map(term).collect()
}
