//! `sample SEED`: writes the stored sample to standard output, and to standard
//! error how many rows it has.

use compare::call::Call;
use compare::sample;
use std::env;
use std::io::{self, Write};
use std::process::ExitCode;

fn main() -> ExitCode {
    let words: Vec<String> = env::args().skip(1).collect();
    let seed = match words.as_slice() {
        [seed] => seed.parse().ok(),
        _ => None,
    };
    let Some(seed) = seed else {
        eprintln!("usage: sample SEED");
        return ExitCode::from(2);
    };

    let rows = sample::rows(seed);
    let bytes = sample::bytes(&rows);
    if bytes.len() > sample::MAX_BYTES {
        eprintln!("sample: {} bytes are more than a stored sample may have", bytes.len());
        return ExitCode::FAILURE;
    }
    if let Err(error) = io::stdout().write_all(&bytes) {
        eprintln!("sample: {error}");
        return ExitCode::FAILURE;
    }

    eprintln!("{} rows, {} bytes", rows.len(), bytes.len());
    let counts = sample::counts(&rows);
    for call in Call::ALL {
        let of_call = counts.iter().filter(|((of, _), _)| *of == call);
        let parts: Vec<String> =
            of_call.map(|((_, refusal), count)| format!("R{refusal} {count}")).collect();
        eprintln!("{}: {}", call.name(), parts.join(", "));
    }
    ExitCode::SUCCESS
}
