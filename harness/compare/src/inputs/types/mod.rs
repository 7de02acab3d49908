//! Questions about types.
//!
//! - `shapes`: types as trees, the small ones all, and their stores
//! - `small`: all pairs of small types
//! - `pages`: pages of every length, in form and damaged, the limits, names and bindings
//! - `hostile`: stores that make a comparison long
//! - `layers`: types over few types a level, shallow and deep
//! - `some`: random types, and one random question of each call

pub mod hostile;
pub mod layers;
mod pages;
pub mod shapes;
mod small;
mod some;

pub use pages::{many, small_stores};
pub use small::with_rooms;
pub use some::{
    empty_types, has_generic, into_const, make_type, matches, names_for, page_for, read_type,
    rubbish, some_shape, substitute, unify, unify_arg,
};

use super::Sink;
use crate::random::Random;

pub fn questions(random: &mut Random, rounds: usize, ask: Sink) {
    small::questions(ask);
    pages::questions(random, ask);
    for _ in 0..rounds {
        ask(empty_types(random));
        ask(make_type(random));
        ask(read_type(random));
        ask(matches(random));
        ask(has_generic(random));
        ask(into_const(random));
        ask(unify(random));
        ask(unify_arg(random));
        ask(substitute(random));
    }
}
