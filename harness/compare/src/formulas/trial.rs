//! Puts the claim, and the two calls about whole formulas, to pairs of formulas, and counts.

use super::composed::{compared, Composed, Run, Stop};
use super::statement::{missed, Hypothesis, Judged, Statement};
use super::{formula_text, Case, Formula, FormulaCalls};
use crate::call::{Answer, Question};
use std::collections::BTreeMap;
use std::fmt::{self, Write};

/// How many differences are shown.
const SHOWN: usize = 5;

/// A case of which the claim is false, as a hypothesis is missed.
pub struct Instance {
    pub case: Case,
    pub text: String,
}

/// What was found of the pairs of formulas in which the same hypotheses are missed.
#[derive(Default)]
pub struct Dropped {
    pub cases: u64,
    pub wrong: u64,
    pub shortest: Option<Instance>,
}

/// What is known so far.
#[derive(Default)]
pub struct Tally {
    pub cases: u64,
    /// How many were refused with each number (0: answered).
    pub refusals: BTreeMap<u32, u64>,
    /// How many that meet all hypotheses had more routes than are walked.
    pub long: u64,
    pub yes: u64,
    pub no: u64,
    /// Of these, how many pairs of routes have the same totals, and how many have not.
    pub same: u64,
    pub different: u64,
    /// By the hypotheses that either formula misses, at least one.
    pub dropped: BTreeMap<Vec<Hypothesis>, Dropped>,
    /// How many formulas were answered by `check_formula` and by single calls.
    pub checked: u64,
    pub differences: u64,
    pub first: Vec<String>,
}

impl Tally {
    /// How many pairs of formulas meet all hypotheses, and were walked.
    pub fn met(&self) -> u64 {
        self.yes + self.no
    }

    fn differ(&mut self, case: &Case, what: &str) {
        self.differences += 1;
        if self.first.len() < SHOWN {
            self.first.push(format!("  {what}\n    {}\n", case.text()));
        }
    }

    /// The claim of one case, whose single calls answered this.
    fn state(&mut self, case: &Case, run: &Run, convertible: bool, statement: Statement) {
        let mut missing = missed(&case.left, &run.left);
        missing.extend(missed(&case.right, &run.right));
        missing.sort_unstable();
        missing.dedup();
        let Some(judged) = statement.judge(case, convertible) else {
            self.long += u64::from(missing.is_empty());
            return;
        };
        if !missing.is_empty() {
            self.without(case, missing, convertible, &judged);
            return;
        }
        *(if convertible { &mut self.yes } else { &mut self.no }) += 1;
        self.same += judged.same;
        self.different += judged.different;
        if judged.wrong.is_some() {
            self.differ(case, &wrong_text(convertible, &judged));
        } else if judged.same + judged.different == 0 {
            self.differ(case, "no route");
        }
    }

    fn without(
        &mut self,
        case: &Case,
        missing: Vec<Hypothesis>,
        convertible: bool,
        judged: &Judged,
    ) {
        let dropped = self.dropped.entry(missing).or_default();
        dropped.cases += 1;
        if judged.wrong.is_some() {
            dropped.wrong += 1;
            let text = wrong_text(convertible, judged);
            if dropped.shortest.as_ref().is_none_or(|kept| case.size() < kept.case.size()) {
                dropped.shortest = Some(Instance { case: case.clone(), text });
            }
        }
    }

    pub fn report(&self) -> String {
        let refusals: Vec<String> =
            self.refusals.iter().map(|(refusal, cases)| format!("R{refusal} {cases}")).collect();
        let mut report = format!(
            "{} pairs of formulas ({}), {} formulas checked, {} differences\n",
            self.cases,
            refusals.join(", "),
            self.checked,
            self.differences
        );
        self.first.iter().for_each(|line| report.push_str(line));
        writeln!(
            report,
            "all hypotheses met: {} (yes {}, no {}), {} more with too many routes; pairs of \
             routes: {} with the same totals, {} with others",
            self.met(),
            self.yes,
            self.no,
            self.long,
            self.same,
            self.different
        )
        .expect("a string takes all");
        for (missing, dropped) in &self.dropped {
            let Dropped { cases, wrong, shortest } = dropped;
            writeln!(report, "missed {missing:?}: {cases}, the claim false of {wrong}")
                .expect("a string takes all");
            if let Some(Instance { case, text }) = shortest.as_ref().filter(|_| missing.len() < 3) {
                writeln!(report, "  {text}: {}", case.terms()).expect("a string takes all");
            }
        }
        report
    }
}

fn difference<Seen: fmt::Display>(
    call: &str,
    expected: &Result<Seen, String>,
    found: &Result<Seen, String>,
) -> String {
    let text = |seen: &Result<Seen, String>| match seen {
        Ok(seen) => seen.to_string(),
        Err(misdeed) => misdeed.clone(),
    };
    format!("{call}\n    expected {}\n    found    {}", text(expected), text(found))
}

fn wrong_text(convertible: bool, judged: &Judged) -> String {
    let (one, other) = judged.wrong.as_ref().expect("a pair of routes");
    let called = if convertible { "convertible" } else { "inconvertible" };
    format!("called {called}, routes with totals {one:?} and {other:?}")
}

/// The calls on trial, the single calls, and the statement.
pub struct Trial<'a, Ask> {
    pub calls: &'a dyn FormulaCalls,
    pub single: &'a Composed<Ask>,
    pub statement: Statement,
}

impl<Ask: Fn(&Question) -> Result<Answer, String>> Trial<'_, Ask> {
    /// One case: the calls beside single calls, and the claim beside the call. `others` are
    /// roots that `check_formula` is asked about beside the formulas' own.
    pub fn put(&self, case: &Case, others: &[u32], tally: &mut Tally) {
        tally.cases += 1;
        let run = self.single.run(case);
        let refusal = match &run {
            Ok(_) => 0,
            Err(Stop::Refused(refusal)) => *refusal,
            Err(Stop::Misdeed(misdeed)) => return tally.differ(case, misdeed),
        };
        *tally.refusals.entry(refusal).or_default() += 1;

        let expected = compared(case, &run);
        let found = self.calls.compare_formulas(case);
        if expected != found {
            tally.differ(case, &difference("compare_formulas", &expected, &found));
        }
        for formula in [&case.left, &case.right] {
            self.check(case, formula, tally);
            for &root in others {
                self.check(case, &Formula { root, ..formula.clone() }, tally);
            }
        }
        if let (Ok(run), Ok(found)) = (run, found) {
            if found.refusal == 0 {
                tally.state(case, &run, found.value == 1, self.statement);
            }
        }
    }

    fn check(&self, case: &Case, formula: &Formula, tally: &mut Tally) {
        tally.checked += 1;
        let expected = self.single.check_formula(case.pages(), formula);
        let found = self.calls.check_formula(case.pages(), formula);
        if expected != found {
            let call = format!("check_formula of {}", formula_text(formula));
            tally.differ(case, &difference(&call, &expected, &found));
        }
    }
}

#[cfg(test)]
mod tests {
    use super::*;
    use crate::call::Pages;
    use crate::expected::expected;
    use crate::formulas::{Checked, Compared};
    use crate::inputs::formulas::{case, other_roots};
    use crate::random::Random;

    fn ask(question: &Question) -> Result<Answer, String> {
        Ok(expected(question))
    }

    /// Calls that answer as single calls do, but for what these two do to the answers.
    struct Changed(fn(&mut Checked), fn(&Case, &mut Compared));

    impl FormulaCalls for Changed {
        fn check_formula(&self, pages: Pages, formula: &Formula) -> Result<Checked, String> {
            let mut checked = Composed(ask).check_formula(pages, formula)?;
            (self.0)(&mut checked);
            Ok(checked)
        }

        fn compare_formulas(&self, case: &Case) -> Result<Compared, String> {
            let mut compared = Composed(ask).compare_formulas(case)?;
            (self.1)(case, &mut compared);
            Ok(compared)
        }
    }

    fn differences(calls: &Changed) -> u64 {
        let single = Composed(ask);
        let trial = Trial { calls, single: &single, statement: Statement::default() };
        let (mut random, mut tally) = (Random::new(3), Tally::default());
        for _ in 0..300 {
            let case = case(&mut random);
            let roots = other_roots(&mut random, &case);
            trial.put(&case, &roots, &mut tally);
        }
        tally.differences
    }

    #[test]
    fn equal_answers_are_no_difference_and_others_are() {
        let (checked, compared) = (|_: &mut Checked| (), |_: &Case, _: &mut Compared| ());
        assert_eq!(differences(&Changed(checked, compared)), 0);
        let none_wrong = |checked: &mut Checked| {
            if let [.., errors] = &mut checked.out[..] {
                *errors = 0;
            }
        };
        assert!(differences(&Changed(none_wrong, compared)) > 0);
        let unmoved = |case: &Case, compared: &mut Compared| {
            compared.pairs = case.pairs.clone();
        };
        assert!(differences(&Changed(checked, unmoved)) > 0);
        let always = |_: &Case, compared: &mut Compared| {
            compared.value = u32::from(compared.refusal == 0);
        };
        assert!(differences(&Changed(checked, always)) > 0);
    }
}
