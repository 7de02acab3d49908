//! The stored sample: chosen questions for every rule and refusal, then some
//! random ones, each with the answer of the oracle or the model.

pub mod answers;
pub mod names;
pub mod pairs;
pub mod rows;
pub mod types;
pub mod units;

use crate::call::{Call, Question};
use crate::expected::expected;
use crate::inputs;
use crate::limits::{BINDINGS_BYTES, EMPTY_PAIRS_BYTES};
use crate::random::Random;
use rows::Row;
use std::collections::{BTreeMap, BTreeSet};

/// The most bytes that a stored sample may have.
pub const MAX_BYTES: usize = 585_000;

/// A random question larger than this is left out, since it would crowd out others.
const MAX_QUESTION: usize = 60;

/// The same of a question that has a pair table.
const MAX_PAIR_QUESTION: usize = EMPTY_PAIRS_BYTES + 120;

/// And of another question that has a store.
const MAX_TYPE_QUESTION: usize = BINDINGS_BYTES + 60;

/// The rows of the sample.
pub fn rows(seed: u64) -> Vec<Row> {
    let mut rows = Rows::default();
    names::chosen().into_iter().for_each(|question| rows.put(question));
    units::chosen().into_iter().for_each(|question| rows.put(question));

    let random = &mut Random::new(seed);
    rows.fill(random, 4, inputs::names::empty_names);
    rows.fill(random, 24, inputs::names::add_name);
    rows.fill(random, 24, inputs::names::find_name);
    rows.fill(random, 16, inputs::names::read_name);
    rows.fill(random, 40, inputs::units::unit_form);
    rows.fill(random, 52, inputs::units::product);
    rows.fill(random, 40, inputs::units::exponent);
    rows.fill(random, 24, inputs::units::is_dimensionless);
    rows.fill(random, 3, inputs::units::unit_text);

    pairs::chosen().into_iter().for_each(|question| rows.put(question));
    rows.fill(random, 3, inputs::pairs::empty_pairs);
    rows.fill(random, 32, inputs::pairs::insert_pair);
    rows.fill(random, 20, inputs::pairs::canonical);
    rows.fill(random, 20, inputs::pairs::factor);
    rows.fill(random, 32, inputs::pairs::canonicalize);
    rows.fill(random, 48, inputs::pairs::is_convertible_to);

    types::chosen().into_iter().for_each(|question| rows.put(question));
    rows.fill(random, 2, inputs::types::empty_types);
    rows.fill(random, 16, inputs::types::make_type);
    rows.fill(random, 6, inputs::types::read_type);
    rows.fill(random, 24, inputs::types::matches);
    rows.fill(random, 8, inputs::types::has_generic);
    rows.fill(random, 8, inputs::types::into_const);
    rows.fill(random, 16, inputs::types::unify);
    rows.fill(random, 12, inputs::types::unify_arg);
    rows.fill(random, 12, inputs::types::substitute);

    answers::chosen().into_iter().for_each(|question| rows.put(question));
    rows.fill(random, 12, inputs::answers::check_binary_operator);
    rows.fill(random, 12, inputs::answers::check_unary_operator);
    rows.fill(random, 12, inputs::answers::check_index);
    rows.rows
}

/// The sample as it is stored.
pub fn bytes(rows: &[Row]) -> Vec<u8> {
    rows.iter().flat_map(Row::bytes).collect()
}

/// How many rows there are of each call and refusal (0: none).
pub fn counts(rows: &[Row]) -> BTreeMap<(Call, u32), usize> {
    let mut counts = BTreeMap::new();
    for row in rows {
        *counts.entry((row.question.call, row.answer.refusal)).or_default() += 1;
    }
    counts
}

/// The rows so far, no question twice.
#[derive(Default)]
struct Rows {
    rows: Vec<Row>,
    asked: BTreeSet<Question>,
}

impl Rows {
    fn put(&mut self, question: Question) {
        if self.asked.insert(question.clone()) {
            let answer = expected(&question);
            self.rows.push(Row { question, answer });
        }
    }

    /// Puts `count` more rows of random questions that are small enough.
    fn fill(&mut self, random: &mut Random, count: usize, question: fn(&mut Random) -> Question) {
        let wanted = self.rows.len() + count;
        while self.rows.len() < wanted {
            let question = question(random);
            if fits(&question) {
                self.put(question);
            }
        }
    }
}

fn fits(question: &Question) -> bool {
    let Question { call, page, first, second, names, pairs, .. } = question;
    let most = match call {
        _ if call.is_about_pairs() || *call == Call::CheckBinaryOperator => MAX_PAIR_QUESTION,
        _ if call.is_about_types() || call.is_about_answers() => MAX_TYPE_QUESTION,
        _ => MAX_QUESTION,
    };
    let parts = [page, first, second, names, pairs];
    let size: usize = parts.iter().map(|part| part.len()).sum();
    size <= most && question.argument <= u16::MAX.into()
}

#[cfg(test)]
mod tests {
    use super::*;
    use crate::call::{all_outcomes, all_reasons, reasons_of};

    fn outcomes(rows: &[Row]) -> BTreeSet<(Call, u32)> {
        counts(rows).into_keys().collect()
    }

    #[test]
    fn a_seed_gives_one_sample_and_it_is_read_back() {
        for seed in 0..20 {
            let rows = rows(seed);
            let bytes = bytes(&rows);
            assert_eq!(bytes, super::bytes(&super::rows(seed)));
            assert!(bytes.len() <= MAX_BYTES, "{} bytes", bytes.len());
            assert!((2_500..=2_900).contains(&rows.len()), "{} rows", rows.len());
            assert_eq!(outcomes(&rows), all_outcomes());
            assert_eq!(rows::read_rows(&bytes), Some(rows));
            assert_eq!(rows::read_rows(&bytes[..bytes.len() - 1]), None);
        }
    }

    #[test]
    fn every_outcome_and_reason_has_a_chosen_row() {
        let mut chosen = Rows::default();
        names::chosen()
            .into_iter()
            .chain(units::chosen())
            .chain(pairs::chosen())
            .chain(types::chosen())
            .chain(answers::chosen())
            .for_each(|question| chosen.put(question));
        assert_eq!(outcomes(&chosen.rows), all_outcomes());
        let reasons = chosen.rows.iter().flat_map(|row| reasons_of(row.question.call, &row.answer));
        assert_eq!(reasons.collect::<BTreeSet<_>>(), all_reasons());
    }
}
