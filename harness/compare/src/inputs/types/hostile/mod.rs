//! Stores made so that a comparison of two of their types has much to do: every pair of types
//! that can meet does meet, and what ends a comparison stands last.
//!
//! - `levels`: types of sixteen children in levels, the types of a level being children again
//!   and again
//! - `towers`: nearly full pages of 65,536 bytes, with the most that was found to do

mod levels;
mod towers;

pub use levels::{failing_tuples, keys, tuples, unions};
pub use towers::{
    ladder, many_containers, many_maps, short_tuples, tuples_below, unions_of_arrays,
    unions_two_deep,
};

use super::shapes::{ARRAY, MAP, NULL, TUPLE};
use crate::random::Random;
use crate::types::store::{Entry, Store};

/// A store, and the two types of it that are compared.
pub struct Hostile {
    pub store: Store,
    pub actual: u16,
    pub expected: u16,
}

fn made(store: &mut Store, kind: u8, children: &[u16]) -> u16 {
    store.make(Entry::of(kind, children), usize::MAX).expect("a type within the limits")
}

fn empty_array(store: &mut Store) -> u16 {
    made(store, ARRAY, &[NULL.into()])
}

/// Arrays of the kinds from Int to Fn.
const KINDS: u16 = 18;

/// So many arrays, none of which stands for another: of the kinds from Int to Fn, then of pairs of
/// such arrays.
fn arrays(store: &mut Store, count: usize) -> Vec<u16> {
    let mut arrays: Vec<u16> = (1..=KINDS).map(|kind| made(store, ARRAY, &[kind])).collect();
    for place in 0..count.saturating_sub(arrays.len()) {
        let kinds = usize::from(KINDS);
        let pair = [arrays[place % kinds], arrays[place / kinds % kinds]];
        let pair = made(store, TUPLE, &pair);
        arrays.push(made(store, ARRAY, &[pair]));
    }
    arrays
}

/// So many different ones of the choices.
fn sample(random: &mut Random, choices: &[u16], count: usize) -> Vec<u16> {
    let mut rest = choices.to_vec();
    (0..count).map(|_| rest.swap_remove(random.below(rest.len()))).collect()
}

/// So many different types over children that are drawn.
fn different(
    store: &mut Store,
    count: usize,
    kind: u8,
    mut children: impl FnMut(usize) -> Vec<u16>,
) -> Vec<u16> {
    let mut types: Vec<u16> = Vec::new();
    while types.len() < count {
        let number = made(store, kind, &children(types.len()));
        if !types.contains(&number) {
            types.push(number);
        }
    }
    types
}

/// So many of the choices, one often more than once.
fn draw(random: &mut Random, choices: &[u16], count: usize) -> Vec<u16> {
    (0..count).map(|_| *random.pick(choices)).collect()
}

/// Maps that no two match: of the pairs of such types.
fn maps(store: &mut Store, types: &[u16], count: usize) -> Vec<u16> {
    let pairs = types.iter().flat_map(|&key| types.iter().map(move |&value| [key, value]));
    pairs.take(count).map(|pair| made(store, MAP, &pair)).collect()
}

#[cfg(test)]
mod tests {
    use super::*;

    #[test]
    fn every_store_fits_a_page_of_65_536_bytes() {
        let all = [
            tuples(),
            unions(),
            failing_tuples(),
            keys(),
            unions_of_arrays(),
            unions_two_deep(),
            many_containers(),
            tuples_below(),
            short_tuples(),
            many_maps(),
            ladder(),
        ];
        for Hostile { store, actual, expected } in all {
            let page = store.write(0);
            assert!(page.len() <= 65_536, "{}", page.len());
            assert!(Store::read(&page, 0).is_some() && page.len() > 2);
            assert!(store.in_use(actual.into()) && store.in_use(expected.into()));
        }
    }
}
