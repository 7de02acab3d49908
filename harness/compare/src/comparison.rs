//! Asks both sides each question, and counts where they differ.

use crate::call::{Answer, Call, Question};
use std::collections::BTreeMap;
use std::fmt::Write;

/// How many differences of a call are shown.
const SHOWN: usize = 5;

/// What is known of one call so far.
#[derive(Default)]
struct Tally {
    inputs: u64,
    /// How many inputs got each refusal (0: none), so that a reader sees what was tried.
    refusals: BTreeMap<u32, u64>,
    yes: u64,
    differences: u64,
    first: Vec<String>,
}

/// Compares the expected answers with those of `library`, which may also tell of a misdeed.
pub struct Comparison<Library, Expected> {
    library: Library,
    expected: Expected,
    tallies: BTreeMap<Call, Tally>,
}

impl<Library, Expected> Comparison<Library, Expected>
where
    Library: Fn(&Question) -> Result<Answer, String>,
    Expected: Fn(&Question) -> Answer,
{
    pub fn new(library: Library, expected: Expected) -> Self {
        Self { library, expected, tallies: BTreeMap::new() }
    }

    /// Asks both sides; what comes back is the expected answer.
    pub fn put(&mut self, question: Question) -> Answer {
        let expected = (self.expected)(&question);
        let found = (self.library)(&question);

        let tally = self.tallies.entry(question.call).or_default();
        tally.inputs += 1;
        *tally.refusals.entry(expected.refusal).or_default() += 1;
        tally.yes += u64::from(expected.is_yes(question.call));
        if found.as_ref() != Ok(&expected) {
            tally.differences += 1;
            if tally.first.len() < SHOWN {
                tally.first.push(difference(&question, &expected, &found));
            }
        }
        expected
    }

    pub fn differences(&self) -> u64 {
        self.tallies.values().map(|tally| tally.differences).sum()
    }

    /// One line for each call, with its first differences below it.
    pub fn report(&self) -> String {
        let mut report = String::new();
        for call in Call::ALL {
            match self.tallies.get(&call) {
                Some(tally) => tally.report(call, "", &mut report),
                None => Tally::default().report(call, "", &mut report),
            }
        }
        report
    }

    /// The same below a heading, just for the calls that were asked, all of which answer yes or
    /// no, with how often each did.
    pub fn report_below(&self, heading: &str) -> String {
        let mut report = format!("{heading}\n");
        for (&call, tally) in &self.tallies {
            let answered = tally.refusals.get(&0).unwrap_or(&0);
            let said = format!("; yes {}, no {}", tally.yes, answered - tally.yes);
            tally.report(call, &said, &mut report);
        }
        report
    }
}

impl Tally {
    fn report(&self, call: Call, said: &str, report: &mut String) {
        let refusals: Vec<String> =
            self.refusals.iter().map(|(refusal, inputs)| format!("R{refusal} {inputs}")).collect();
        writeln!(
            report,
            "{}: {} inputs ({}{said}), {} differences",
            call.name(),
            self.inputs,
            refusals.join(", "),
            self.differences
        )
        .expect("a string takes all");
        for line in &self.first {
            report.push_str(line);
        }
    }
}

fn difference(question: &Question, expected: &Answer, found: &Result<Answer, String>) -> String {
    let found = match found {
        Ok(answer) => answer_text(answer),
        Err(misdeed) => misdeed.clone(),
    };
    format!(
        "  argument {} page [{}] first [{}] second [{}] names [{}] pairs [{}]\n    \
         expected {}\n    found    {found}\n",
        question.argument,
        hexadecimal(&question.page),
        hexadecimal(&question.first),
        hexadecimal(&question.second),
        hexadecimal(&question.names),
        hexadecimal(&question.pairs),
        answer_text(expected),
    )
}

fn answer_text(answer: &Answer) -> String {
    format!(
        "refusal {} value {} out [{}] page [{}]",
        answer.refusal,
        answer.value,
        hexadecimal(&answer.out),
        hexadecimal(&answer.page)
    )
}

fn hexadecimal(bytes: &[u8]) -> String {
    bytes.iter().map(|byte| format!("{byte:02x}")).collect()
}

#[cfg(test)]
mod tests {
    use super::*;
    use crate::expected::expected;

    #[test]
    fn equal_answers_are_no_difference_and_others_are() {
        let forgetful = |question: &Question| {
            let mut answer = expected(question);
            answer.page.clear();
            Ok(answer)
        };
        let mut comparison = Comparison::new(forgetful, expected);
        comparison.put(Question::unit_form(&[0]));
        assert_eq!(comparison.differences(), 0);
        comparison.put(Question::add_name(&[0, 0, 0, 0], b"m"));
        assert_eq!(comparison.differences(), 1);
        assert!(comparison.report().contains(
            "add_name: 1 inputs (R0 1), 1 differences\n  argument 0 page [00000000] first [6d]"
        ));
    }
}
