//! Demand 3 by brute force, written from the mission and document 01, section Formulas and
//! sheets: which pairs are accepted, what groups they make, what is asked of a formula, every
//! route down a formula, and whether two routes have the same total in every group.
//!
//! Nothing here knows a root, a parent byte or a group sum of the library's.

use super::composed::{Answers, Node};
use super::{parts, terms_of, Case, Formula, Written, MINUS, PLUS, SLASH, STAR};
use crate::limits::{MAX_NAMES, MAX_PAIRS, PAIR_BYTES};
use crate::names::Names;
use crate::types::store::Store;
use std::collections::BTreeMap;

/// The most routes of a formula that are walked, and the most nodes on the way.
const MAX_ROUTES: usize = 20_000;

/// The most that the two may come to, multiplied: a route keeps every value that it reaches.
const MAX_WORK: usize = 4_000_000;

/// A mistake in the statement that a comparison has to find. To walk just one side of a sum is
/// none that could be found: where the hypotheses are met, both sides have the same totals.
#[derive(Debug, Clone, Copy, PartialEq, Eq)]
pub enum Fault {
    /// A divisor's exponents are not negated.
    DivisorKept,
    /// A divisor within a divisor is not negated once more.
    DivisorTurnedOnce,
    /// The right side of a difference is negated.
    DifferenceTurned,
    /// Of a product just the left side is walked.
    ProductLeft,
    /// Of a quotient just the dividend is walked.
    Dividend,
    /// An index is walked to its key.
    KeyWalked,
    /// Of each symbol just the first pair counts.
    FirstPairs,
    /// Each symbol is a group by itself.
    BySymbol,
    /// Symbols that are joined through others are in different groups.
    DirectPairs,
    /// A refused insertion joins its symbols.
    RefusedPairs,
    /// The pairs of the table at the start do not count.
    StartForgotten,
    /// All symbols are one group.
    OneGroup,
}

impl Fault {
    pub const ALL: [Fault; 12] = [
        Fault::DivisorKept,
        Fault::DivisorTurnedOnce,
        Fault::DifferenceTurned,
        Fault::ProductLeft,
        Fault::Dividend,
        Fault::KeyWalked,
        Fault::FirstPairs,
        Fault::BySymbol,
        Fault::DirectPairs,
        Fault::RefusedPairs,
        Fault::StartForgotten,
        Fault::OneGroup,
    ];
}

/// What demand 3 asks of a formula.
#[derive(Debug, Clone, Copy, PartialEq, Eq, PartialOrd, Ord)]
pub enum Hypothesis {
    /// "Formulas .. that pass".
    Passes,
    /// "With number results".
    Number,
    /// "No union in any type".
    NoUnion,
    /// "No sum or difference with exactly one unitless side".
    Sides,
}

impl Hypothesis {
    pub const ALL: [Hypothesis; 4] =
        [Hypothesis::Passes, Hypothesis::Number, Hypothesis::NoUnion, Hypothesis::Sides];
}

/// The exponents of a route by symbol, one for each value and symbol that it reaches.
pub type Route = Vec<(u8, i64)>;

/// The exponent total of each group that has one, by the group's lowest symbol.
pub type Totals = BTreeMap<u8, i64>;

/// The pairs whose symbols are joined: symbol and base.
pub type Joining = Vec<(u8, u8)>;

/// The claim, with a fault or without.
#[derive(Debug, Clone, Copy, Default)]
pub struct Statement {
    pub fault: Option<Fault>,
}

impl Statement {
    fn has(self, fault: Fault) -> bool {
        self.fault == Some(fault)
    }

    // ---- Groups

    /// "Accepted pairs are those listed in the table at the start and those to whose insertion
    /// no refusal applies", over names and a table in form.
    pub fn accepted(self, case: &Case) -> Joining {
        let count = usize::from(u16::from_be_bytes([case.pairs[0], case.pairs[1]]));
        let symbols = |body: &[u8]| (body[0], body[1]);
        let listed = case.pairs[2..].chunks_exact(PAIR_BYTES).take(count).map(symbols);
        let mut accepted: Joining = listed.collect();

        let used = match case.lent {
            true => Names::read(&case.names).expect("names in form").0.len(),
            false => MAX_NAMES,
        };
        for (symbol, base) in case.request_bodies().map(symbols) {
            let in_use = usize::from(symbol.max(base)) < used;
            let length = 2 + PAIR_BYTES * (accepted.len() + 1) + MAX_NAMES;
            let room = accepted.len() < MAX_PAIRS && length <= case.pairs.len();
            if (in_use && room) || self.has(Fault::RefusedPairs) {
                accepted.push((symbol, base));
            }
        }
        if self.has(Fault::StartForgotten) {
            accepted.drain(..count);
        }
        accepted
    }

    /// Of each symbol the lowest of its group: "the symbols joined, directly or through
    /// others, by accepted conversion pairs".
    pub fn groups(self, accepted: &[(u8, u8)]) -> [u8; MAX_NAMES] {
        let mut joining = accepted.to_vec();
        if self.has(Fault::FirstPairs) {
            let mut known = Vec::new();
            joining.retain(|(symbol, _)| {
                let first = !known.contains(symbol);
                known.push(*symbol);
                first
            });
        }
        if self.has(Fault::BySymbol) {
            joining.clear();
        }
        let mut lowest: [u8; MAX_NAMES] = std::array::from_fn(|symbol| symbol as u8);
        if self.has(Fault::OneGroup) {
            return [0; MAX_NAMES];
        }
        loop {
            let before = lowest;
            for &(symbol, base) in &joining {
                let [symbol, base] = [symbol, base].map(usize::from);
                // With the fault a group is what a single pair makes.
                let known = if self.has(Fault::DirectPairs) { &before } else { &lowest };
                let low = known[symbol].min(known[base]);
                lowest[symbol] = low;
                lowest[base] = low;
            }
            if lowest == before || self.has(Fault::DirectPairs) {
                return lowest;
            }
        }
    }

    // ---- Routes

    /// Every route from a node down to values; `None` where there are too many to walk.
    pub fn routes(self, formula: &Formula) -> Option<Vec<Route>> {
        let nodes = Written::all(&formula.nodes);
        let root = formula.root as usize;
        self.is_within_reach(&nodes, root).then(|| self.walk(&nodes, root, false))
    }

    /// The routes from a node; `divisor` says whether it lies in a divisor, which only a fault
    /// makes use of.
    fn walk(self, nodes: &[Written], node: usize, divisor: bool) -> Vec<Route> {
        let down = |number: u8| self.walk(nodes, number.into(), divisor);
        match nodes[node] {
            Written::Value { unit, .. } => vec![terms_of(unit)],
            Written::Unary { op: MINUS, operand } => down(operand),
            Written::Binary { op: op @ (PLUS | MINUS), left, right } => {
                let turned = op == MINUS && self.has(Fault::DifferenceTurned);
                let right = if turned { negated(&down(right)) } else { down(right) };
                [down(left), right].concat()
            }
            Written::Binary { op: STAR, left, right } => match self.has(Fault::ProductLeft) {
                true => down(left),
                false => joined(&down(left), &down(right)),
            },
            Written::Binary { op: SLASH, left, right } => {
                let divisors = self.walk(nodes, right.into(), true);
                let kept =
                    self.has(Fault::DivisorKept) || (divisor && self.has(Fault::DivisorTurnedOnce));
                let divisors = if kept { divisors } else { negated(&divisors) };
                match self.has(Fault::Dividend) {
                    true => down(left),
                    false => joined(&down(left), &divisors),
                }
            }
            Written::Index { key, .. } if self.has(Fault::KeyWalked) => down(key),
            Written::Index { target, .. } => down(target),
            _ => Vec::new(),
        }
    }

    /// Whether the routes are few enough, and what is walked.
    fn is_within_reach(self, nodes: &[Written], root: usize) -> bool {
        // Of each node how many routes there are, and how many nodes the walk comes to.
        let mut sizes: Vec<(usize, usize)> = Vec::new();
        for node in &nodes[..=root] {
            let below = |number: u8| sizes[usize::from(number)];
            let walked = node
                .operands()
                .iter()
                .fold(1, |sum: usize, &number| sum.saturating_add(sizes[number].1));
            let routes = match *node {
                Written::Value { .. } => 1,
                Written::Unary { operand, .. } => below(operand).0,
                Written::Binary { op: PLUS | MINUS, left, right } => {
                    below(left).0.saturating_add(below(right).0)
                }
                Written::Binary { op: STAR | SLASH, left, right } => {
                    below(left).0.saturating_mul(below(right).0)
                }
                Written::Index { target, key } => below(target).0.max(below(key).0),
                _ => 0,
            };
            // The routes of each node are written down.
            sizes.push((routes, walked.saturating_add(routes)));
        }
        let (routes, walked) = sizes[root];
        walked <= MAX_ROUTES && routes.saturating_mul(walked) <= MAX_WORK
    }

    /// The totals of routes, each with how many have it.
    pub fn totals(self, groups: &[u8; MAX_NAMES], routes: &[Route]) -> BTreeMap<Totals, u64> {
        let mut all = BTreeMap::new();
        for route in routes {
            let mut totals = Totals::new();
            for &(symbol, exponent) in route {
                *totals.entry(groups[usize::from(symbol)]).or_default() += exponent;
            }
            totals.retain(|_, total| *total != 0);
            *all.entry(totals).or_default() += 1;
        }
        all
    }

    // ---- The claim

    /// Every route down the one formula beside every route down the other; `None` where there
    /// are too many.
    pub fn judge(self, case: &Case, convertible: bool) -> Option<Judged> {
        let groups = self.groups(&self.accepted(case));
        let left = self.totals(&groups, &self.routes(&case.left)?);
        let right = self.totals(&groups, &self.routes(&case.right)?);
        let mut judged = Judged::default();
        for (one, many) in &left {
            for (other, times) in &right {
                let same = one == other;
                *(if same { &mut judged.same } else { &mut judged.different }) += many * times;
                if same != convertible && judged.wrong.is_none() {
                    judged.wrong = Some((one.clone(), other.clone()));
                }
            }
        }
        Some(judged)
    }
}

/// How many pairs of routes have the same total in every group, how many have not, and one
/// pair of which the call does not tell that.
#[derive(Debug, Default)]
pub struct Judged {
    pub same: u64,
    pub different: u64,
    pub wrong: Option<(Totals, Totals)>,
}

/// "The divisor's exponents negated".
fn negated(routes: &[Route]) -> Vec<Route> {
    let turned = |route: &Route| route.iter().map(|&(symbol, exp)| (symbol, -exp)).collect();
    routes.iter().map(turned).collect()
}

/// "Both sides of each product or quotient": each route down the one with each down the other.
fn joined(left: &[Route], right: &[Route]) -> Vec<Route> {
    let beside = |one: &Route| right.iter().map(|other| [&one[..], other].concat()).collect();
    left.iter().flat_map(|one| -> Vec<Route> { beside(one) }).collect()
}

// ---- What is asked of a formula

/// Which hypotheses a formula misses, each node of whose list has an answer.
pub fn missed(formula: &Formula, answers: &Answers) -> Vec<Hypothesis> {
    let nodes = Written::all(&formula.nodes);
    let root = formula.root as usize;
    let parts = parts(&nodes, root);
    let of_formula = |number: &usize| parts[*number];
    let store = Store::read(&answers.store, MAX_NAMES).expect("a store in form");
    let numbers = || (0..nodes.len()).filter(of_formula);

    let holds = |hypothesis: &Hypothesis| match hypothesis {
        Hypothesis::Passes => numbers().all(|number| answers.nodes[number].errors() == 0),
        Hypothesis::Number => is_number(&store, &answers.nodes[root]),
        Hypothesis::NoUnion => numbers().all(|number| !has_union(&store, &answers.nodes[number])),
        Hypothesis::Sides => numbers().all(|number| match nodes[number] {
            Written::Binary { op: PLUS | MINUS, left, right } => {
                let [left, right] = [left, right].map(|side| &answers.nodes[usize::from(side)]);
                left.is_unitless() == right.is_unitless()
            }
            _ => true,
        }),
    };
    Hypothesis::ALL.into_iter().filter(|hypothesis| !holds(hypothesis)).collect()
}

/// "A number has kind 1 to 6, 11 or 12."
fn is_number(store: &Store, node: &Node) -> bool {
    let known = u16::try_from(node.checked());
    known.is_ok_and(|number| matches!(store.entry(number).kind, 1..=6 | 11 | 12))
}

/// "Is or holds one of kind 29 or 30", a Function its Callback.
fn has_union(store: &Store, node: &Node) -> bool {
    let checked = node.checked();
    checked < crate::limits::UNKNOWN && holds_union(store, checked as u16)
}

fn holds_union(store: &Store, number: u16) -> bool {
    let entry = store.entry(number);
    matches!(entry.kind, 29 | 30) || entry.children.iter().any(|&child| holds_union(store, child))
}
