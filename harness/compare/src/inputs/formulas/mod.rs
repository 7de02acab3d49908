//! Pairs of formulas, with insertions before them: most of them pass, so that the claim about
//! their routes is put to the test; some are refused or miss a hypothesis.
//!
//! - `ground`: the store, the symbols, their groups and units that formulas are drawn over
//! - `draft`: a formula, drawn node by node
//! - `extremes`: formulas at the limits, and harmed ones

mod draft;
mod extremes;
mod ground;

use crate::formulas::{Case, NODE_BYTES};
use crate::random::Random;
use draft::Draft;
use extremes::{damage, extreme, wide};
use ground::{ground, times, Unit};

/// The most nodes of an ordinary list.
const LONG: usize = 40;

fn length(random: &mut Random) -> usize {
    match random.below(4) {
        0 => 1 + random.below(4),
        1 => 1 + random.below(15),
        _ => 1 + random.below(LONG),
    }
}

/// One pair of formulas.
pub fn case(random: &mut Random) -> Case {
    if random.once_in(60) {
        return wide(random);
    }
    let (mut case, ground) = ground(random);
    let mut left = Draft::new(random, &ground);
    let count = length(random);
    left.fill(random, count);
    let left_root = left.root(random);

    let mut right = Draft::new(random, &ground);
    let count = length(random);
    right.fill(random, count);
    let mut right_root = right.root(random);
    if !random.once_in(3) {
        let mut wanted = left.unit(left_root).clone();
        if random.once_in(4) {
            wanted = times(&wanted, &Unit::from([(*random.pick(&ground.symbols), 1)]), 1);
        }
        right_root = right.adjust(random, right_root, &wanted);
    }
    case.left = left.formula(left_root);
    case.right = right.formula(right_root);
    if random.once_in(60) {
        extreme(random, &mut case.left);
    }
    if random.once_in(20) {
        damage(random, &mut case);
    }
    if random.once_in(2) {
        std::mem::swap(&mut case.left, &mut case.right);
    }
    case
}

/// Roots that `check_formula` is asked about beside a case's own: one of its nodes, and at
/// times none.
pub fn other_roots(random: &mut Random, case: &Case) -> Vec<u32> {
    let count = case.left.nodes.len() / NODE_BYTES;
    let some = random.below(count + 1) as u32;
    if random.once_in(10) {
        return vec![some, count as u32, u32::MAX];
    }
    vec![some]
}

#[cfg(test)]
mod tests {
    use super::*;
    use crate::expected::expected;
    use crate::formulas::composed::Composed;
    use crate::formulas::statement::{Fault, Hypothesis, Statement};
    use crate::formulas::trial::{Tally, Trial};

    /// So many cases, answered by the unchanged Rust's single calls.
    fn tried(seed: u64, fault: Option<Fault>, cases: u64, until: impl Fn(&Tally) -> bool) -> Tally {
        let single = Composed(|question: &_| Ok(expected(question)));
        let trial = Trial { calls: &single, single: &single, statement: Statement { fault } };
        let (mut random, mut tally) = (Random::new(seed), Tally::default());
        while tally.cases < cases && !until(&tally) {
            let case = case(&mut random);
            trial.put(&case, &[], &mut tally);
        }
        tally
    }

    #[test]
    fn the_claim_holds_and_its_hypotheses_are_often_met() {
        let tally = tried(1, None, 2_000, |_| false);
        println!("{}", tally.report());
        assert_eq!(tally.differences, 0, "{}", tally.report());
        assert!(tally.met() * 5 >= tally.cases, "a fifth: {}", tally.report());
        assert!(tally.yes * 4 >= tally.met() && tally.no * 4 >= tally.met());
    }

    /// How many cases miss that hypothesis alone, and of how many of them the claim is false.
    fn dropped(tally: &Tally, hypothesis: Hypothesis) -> (u64, u64) {
        let dropped = &tally.dropped[&vec![hypothesis]];
        (dropped.cases, dropped.wrong)
    }

    #[test]
    fn each_hypothesis_is_needed_but_that_on_unions() {
        let tally = tried(2, None, 4_000, |_| false);
        for hypothesis in [Hypothesis::Passes, Hypothesis::Number, Hypothesis::Sides] {
            assert!(dropped(&tally, hypothesis).1 > 0, "{}", tally.report());
        }
        // A number results where the union is not negated into another (see `instances`).
        let (cases, wrong) = dropped(&tally, Hypothesis::NoUnion);
        assert!(cases >= 100 && wrong == 0, "{}", tally.report());
        let unions = &tally.dropped[&vec![Hypothesis::Number, Hypothesis::NoUnion]];
        assert!(unions.wrong > 0, "{}", tally.report());
    }

    #[test]
    fn the_cases_meet_every_refusal() {
        let tally = tried(1, None, 6_000, |_| false);
        let refusals: Vec<u32> = tally.refusals.keys().copied().collect();
        assert_eq!(refusals, [0, 1, 2, 3, 5, 6, 7, 8, 9, 10]);
    }

    #[test]
    fn every_planted_fault_is_found_within_a_thousand_pairs() {
        for fault in Fault::ALL {
            let tally = tried(1, Some(fault), 1_000, |tally| tally.differences > 0);
            println!("{fault:?} after {} pairs, {} that count", tally.cases, tally.met());
            assert!(tally.differences > 0, "{fault:?} is not found: {}", tally.report());
        }
    }
}
