//! Types of sixteen children in levels.

use super::{different, draw, empty_array, made, Hostile};
use crate::inputs::types::shapes::{ANY, ARRAY, CINT, INT, MAP, NULL, TUPLE, UINT};
use crate::limits::MAX_CHILDREN;
use crate::random::Random;
use crate::types::store::Store;

/// Arrays of these kinds.
fn arrays_of(store: &mut Store, kinds: impl IntoIterator<Item = u16>) -> Vec<u16> {
    kinds.into_iter().map(|kind| made(store, ARRAY, &[kind])).collect()
}

/// So many types of a kind, with sixteen children drawn among those below.
fn level(
    store: &mut Store,
    random: &mut Random,
    kind: u8,
    count: usize,
    below: &[u16],
) -> Vec<u16> {
    different(store, count, kind, |_| draw(random, below, MAX_CHILDREN))
}

/// Sixteen levels of ten tuples a side, each of sixteen tuples drawn from the level below of its
/// side. Below them stand Array Null and, so that tuples differ, Null on the left, and Array Int,
/// Array CInt and Array UInt on the right. All pairs of a level match, and with sixteen children
/// nearly all meet.
pub fn tuples() -> Hostile {
    let (mut store, mut random) = (Store::default(), Random::new(1));
    let mut left = vec![empty_array(&mut store), NULL.into()];
    let mut right = arrays_of(&mut store, [INT, CINT, UINT].map(u16::from));
    for _ in 0..16 {
        left = level(&mut store, &mut random, TUPLE, 10, &left);
        right = level(&mut store, &mut random, TUPLE, 10, &right);
    }
    Hostile { store, actual: left[0], expected: right[0] }
}

/// So many levels of unions on either side, each of sixteen members drawn from the level below of
/// its side. Below them stand arrays of four kinds on the left and of four others on the right: no
/// pair matches. What comes back are the highest unions of either side.
fn layered_unions(store: &mut Store, width: usize, levels: usize) -> [Vec<u16>; 2] {
    let mut random = Random::new(2);
    let mut left = arrays_of(store, 1..=4);
    let mut right = arrays_of(store, 5..=8);
    for _ in 0..levels {
        left = level(store, &mut random, ANY, width, &left);
        right = level(store, &mut random, ANY, width, &right);
    }
    [left, right]
}

/// Twenty levels of nine unions a side, as above.
pub fn unions() -> Hostile {
    let mut store = Store::default();
    let [left, right] = layered_unions(&mut store, 9, 20);
    Hostile { store, actual: left[0], expected: right[0] }
}

/// Eight levels of 63 unions a side, as above, and a union of sixteen maps, whose keys are unions
/// of the highest level on the right: an index into it by one of those on the left, which fails
/// with every map.
pub fn keys() -> Hostile {
    let mut store = Store::default();
    let [left, right] = layered_unions(&mut store, 63, 8);
    let maps: Vec<u16> = (0..MAX_CHILDREN as u16)
        .map(|value| made(&mut store, MAP, &[right[usize::from(value)], value]))
        .collect();
    let expected = made(&mut store, ANY, &maps);
    Hostile { store, actual: left[0], expected }
}

/// Fourteen levels, each of 27 tuples on either side that match, over sixteen such of the level
/// below, and of 27 that do not, with fifteen children that match and a last one that does not;
/// on top a union of sixteen that do not on either side. Below stand Null and Array Null on the
/// left, for the last children that do not match arrays of three kinds, and arrays of three others
/// on the right.
pub fn failing_tuples() -> Hostile {
    let (mut store, mut random) = (Store::default(), Random::new(3));
    let nothing = vec![NULL.into(), empty_array(&mut store)];
    let [others, arrays] = [1..=3, 5..=7].map(|kinds| arrays_of(&mut store, kinds));
    let mut sides = [[nothing, others], [arrays.clone(), arrays]];
    for _ in 0..14 {
        sides = sides.map(|[passing, failing]| {
            [&passing, &failing].map(|last| {
                different(&mut store, 27, TUPLE, |_| {
                    let children = draw(&mut random, &passing, MAX_CHILDREN - 1);
                    [children, draw(&mut random, last, 1)].concat()
                })
            })
        });
    }
    let [actual, expected] = sides.map(|[_, failing]| made(&mut store, ANY, &failing[..16]));
    Hostile { store, actual, expected }
}
