//! `compare [SEED [ROUNDS [LEVELS]]]`: asks the static library and the oracle the same questions.
//!
//! What the oracle could not answer in time is asked of the library and the reference, which is
//! held to the oracle by all other questions. Then pairs of formulas are answered, and what
//! demand 3 claims of their routes is held to every route. Ends with status 1 if an answer differs.

mod formulas;
mod library;

use compare::comparison::Comparison;
use compare::expected::expected;
use compare::inputs;
use compare::inputs::types::layers::{deep, MOST_LEVELS};
use compare::reference;
use std::env;
use std::process::ExitCode;

const SEED: u64 = 1;
const ROUNDS: usize = 100_000;

fn main() -> ExitCode {
    let numbers: Option<Vec<u64>> = env::args().skip(1).map(|word| word.parse().ok()).collect();
    let (seed, rounds, levels) = match numbers.as_deref() {
        Some([]) => (SEED, ROUNDS, MOST_LEVELS),
        Some([seed]) => (*seed, ROUNDS, MOST_LEVELS),
        Some([seed, rounds]) => (*seed, *rounds as usize, MOST_LEVELS),
        Some([seed, rounds, levels]) if (1..=MOST_LEVELS as u64).contains(levels) => {
            (*seed, *rounds as usize, *levels as usize)
        }
        _ => {
            eprintln!("usage: compare [SEED [ROUNDS [LEVELS]]], LEVELS from 1 to {MOST_LEVELS}");
            return ExitCode::from(2);
        }
    };
    ExitCode::from(u8::from(compared(seed, rounds, levels) > 0))
}

/// Asks all questions, prints the reports, and counts the differences.
fn compared(seed: u64, rounds: usize, levels: usize) -> u64 {
    let mut library = Comparison::new(library::ask, expected);
    let mut reference = Comparison::new(|question| Ok(reference::expected(question)), expected);
    inputs::questions(seed, rounds, &mut |question| {
        if reference::answers(question.call) {
            reference.put(question.clone());
        }
        library.put(question)
    });
    print!("{}", library.report());
    print!("{}", reference.report_below("the reference, held to the Rust by the same questions:"));

    let mut nested = Comparison::new(library::ask, reference::expected);
    deep(seed, rounds, levels, &mut |question| nested.put(question));
    print!("{}", nested.report_below("the library, held to the reference by deep types:"));
    let formulas = formulas::compared(seed, rounds);
    library.differences() + reference.differences() + nested.differences() + formulas
}
