//! `measure [PART]`: how long the static library and the Rust take for the same work, side by side
//! in one run; of all parts, or of one.

mod answers;
mod formulas;
mod hostile;
mod pairs;
mod places;
mod types;
mod units;

use compare::exports::riddlepoppy_add_name;
use compare::units::{oracle_unit, unit_bytes, Term};
use oracle::units::Unit;
use std::env;
use std::process::ExitCode;
use std::time::Instant;

const PAGE_BYTES: usize = 65_536;

/// The parts by their names, in their order.
const PARTS: [(&str, fn()); 7] = [
    ("units", || units::measure(&mut full_names())),
    ("pairs", || pairs::measure(&full_names())),
    ("types", types::measure),
    ("places", places::measure),
    ("answers", answers::measure),
    ("formulas", formulas::measure),
    ("hostile", hostile::measure),
];

fn main() -> ExitCode {
    let wanted = env::args().nth(1);
    let is_wanted = |name: &str| wanted.as_deref().is_none_or(|word| word == name);
    if !PARTS.iter().any(|(name, _)| is_wanted(name)) {
        let names = PARTS.map(|(name, _)| name).join(", ");
        eprintln!("usage: measure [PART], one of {names}");
        return ExitCode::from(2);
    }
    PARTS.iter().filter(|(name, _)| is_wanted(name)).for_each(|(_, measure)| measure());
    ExitCode::SUCCESS
}

/// Nanoseconds for one call.
fn timed(rounds: u32, mut call: impl FnMut()) -> f64 {
    let start = Instant::now();
    for _ in 0..rounds {
        call();
    }
    start.elapsed().as_nanos() as f64 / f64::from(rounds)
}

fn name(symbol: u8) -> String {
    format!("unit{symbol}")
}

/// A page with all 256 names.
fn full_names() -> Vec<u8> {
    let mut page = vec![0; PAGE_BYTES];
    for name in (0..=255).map(name) {
        // SAFETY: both pointers go with their lengths.
        unsafe { riddlepoppy_add_name(page.as_mut_ptr(), page.len(), name.as_ptr(), name.len()) };
    }
    page
}

/// The same unit for both: symbols by number with exponents.
fn unit(terms: &[Term]) -> (Vec<u8>, Unit) {
    (unit_bytes(terms), oracle_unit(terms, name))
}
