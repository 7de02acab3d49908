//! Questions about operators and indexes.
//!
//! - `operands`: small types, units, and the pages beside them
//! - `small`: all pairs of small types, and all pairs of units
//! - `results`: unions that are answered, with and without room
//! - `pages`: pages in form and damaged, numbers not in use, broken units
//! - `some`: one random question of each call

pub mod operands;
mod pages;
pub mod results;
mod small;
mod some;

pub use some::{check_binary_operator, check_index, check_unary_operator};

use super::Sink;
use crate::random::Random;

pub fn questions(random: &mut Random, rounds: usize, ask: Sink) {
    small::questions(random, ask);
    results::questions(ask);
    pages::questions(random, ask);
    for _ in 0..rounds {
        ask(check_binary_operator(random));
        ask(check_binary_operator(random));
        ask(check_unary_operator(random));
        ask(check_index(random));
        ask(some::check_of_any(random));
    }
}
