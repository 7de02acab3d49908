//! Symbols that are not in use: in the bytes of units of any length, and as numbers that
//! are too large for a symbol.

use crate::inputs::names::{shortest_names, table};
use crate::limits::{MAX_NAMES, MAX_SYMBOLS, NO_UNIT};
use crate::random::Random;
use crate::units::{unit_bytes, Term};
use std::collections::BTreeSet;

/// How many names there are for the symbols of these units.
pub const NAMES: usize = 12;

/// The first symbol that is not in use then, and the last.
const UNUSED: [u8; 2] = [NAMES as u8, 255];

/// A names page, and whether it is lent.
pub type Lending = (Vec<u8>, bool);

/// Names lent by which some symbols are in use, and by which all are; and names not lent.
pub fn lendings() -> [Lending; 3] {
    let [some, all] = [NAMES, MAX_NAMES].map(|count| table(&shortest_names(count)));
    [(some.clone(), true), (all, true), (some, false)]
}

// ---- Units ----

/// Terms that ascend as far as there are names. Read as a symbol, a byte of their exponents
/// would not be in use.
fn in_use(count: usize) -> Vec<Term> {
    (0..count).map(|place| ((place % NAMES) as u8, -1)).collect()
}

/// The places of a unit of so many symbols that are looked at: the first two, those around
/// the eighth, one far on, and the last.
fn places(count: usize) -> impl Iterator<Item = usize> {
    let last = count.checked_sub(1);
    [0, 1, 6, 7, 8, 9, 100].into_iter().chain(last).filter(move |&place| place < count)
}

/// Bytes of units: of none to ten symbols, and of 254; all in use, and one that is not, in
/// several places; whole, cut before and after a symbol byte and in the middle of an
/// exponent, and with bytes after the last. Some that say no unit, and none.
pub fn units() -> BTreeSet<Vec<u8>> {
    let mut units = BTreeSet::from([Vec::new(), NO_UNIT.to_vec()]);
    for count in (0..=10).chain([254]) {
        let whole = unit_bytes(&in_use(count));
        with_lengths(&whole, count, &mut units);
        for place in places(count) {
            for symbol in UNUSED {
                let mut whole = whole.clone();
                whole[1 + 3 * place] = symbol;
                with_lengths(&whole, count, &mut units);
            }
        }
    }
    for symbol in [0, UNUSED[0], UNUSED[1]] {
        let behind = [NO_UNIT[0], symbol, 0, 1].repeat(8);
        units.extend([2, 3, 4, 5, 25, 28].map(|length| behind[..length].to_vec()));
    }
    units
}

/// The bytes as they are, cut and extended.
fn with_lengths(whole: &[u8], count: usize, units: &mut BTreeSet<Vec<u8>>) {
    for place in places(count) {
        let before = 1 + 3 * place;
        units.extend([before, before + 1, before + 2].map(|length| whole[..length].to_vec()));
    }
    let surplus = [UNUSED[0], 255, 255, UNUSED[1]];
    units.extend((0..=surplus.len()).map(|more| [whole, &surplus[..more]].concat()));
}

/// A few of these and of others, to be put together: in form, no unit, out of form, and with
/// a symbol that is not in use beside other faults.
pub fn few_units() -> Vec<Vec<u8>> {
    let unused = UNUSED[0];
    let nine = in_use(MAX_SYMBOLS + 1);
    let mut ninth = nine.clone();
    ninth[MAX_SYMBOLS].0 = unused;
    let (nine, ninth) = (unit_bytes(&nine), unit_bytes(&ninth));
    let cut = ninth[..ninth.len() - 2].to_vec();
    let others: [&[u8]; 14] = [
        &[],
        &[0],
        &NO_UNIT,
        &[1, 0, 0, 1],
        &[1, 0, 0, 0],
        &[1, 0, 0],
        &[9],
        &[1, unused, 0, 1],
        &[2, unused, 0, 1, 0, 0, 1],
        &[1, unused, 0, 0],
        &[1, unused],
        &[1, unused, 0, 1, 0],
        &[254, 0, 0, 1, unused, 0],
        &[255, unused, 0, 1],
    ];
    others.map(<[u8]>::to_vec).into_iter().chain([nine, ninth, cut]).collect()
}

/// Any bytes: a count, and symbols and exponents mostly of few numbers, about as many as it says.
pub fn any_unit(random: &mut Random, bound: usize) -> Vec<u8> {
    let count = match random.below(8) {
        0 => *random.pick(&[10, 20, 254, 255]),
        1 | 2 => MAX_SYMBOLS as u8 + 1,
        _ => random.below(MAX_SYMBOLS + 1) as u8,
    };
    let terms = usize::from(count).min(12);
    let length = (3 * terms + random.below(5)).saturating_sub(random.below(5));
    let seldom = 4 * (terms + 1);
    let mut unit = vec![count];
    for place in 0..length {
        unit.push(match place % 3 {
            0 if random.once_in(seldom) => random.byte(),
            0 => (place / 3 % bound) as u8,
            1 => *random.pick(&[0, 0, 0, 255]),
            _ => *random.pick(&[1, 1, 2, 0, 255]),
        });
    }
    unit
}

// ---- Numbers ----

/// Numbers too large for a symbol. The low byte of each may be one in use.
pub const WIDE: [u16; 5] = [256, 257, 280, 511, 65_535];

/// Symbols that the low bytes of these numbers say.
pub const LOW: [u8; 4] = [0, 1, 24, 255];

/// These, and one with each upper byte.
pub fn wide() -> impl Iterator<Item = u16> {
    WIDE.into_iter().chain((1..=255).map(|upper| upper << 8 | 1))
}

#[cfg(test)]
mod tests {
    use super::*;
    use crate::limits::{BROKEN_UNIT, NOT_IN_USE};
    use crate::units::terms_in_use;

    #[test]
    fn units_of_each_count_are_refused_for_either_fault() {
        let refusals = |count: u8, in_use: usize| -> BTreeSet<u32> {
            let units = units().into_iter().filter(|unit| unit.first() == Some(&count));
            units.filter_map(|unit| terms_in_use(&unit, in_use).err()).collect()
        };
        for count in (1..=10).chain([254]) {
            assert_eq!(refusals(count, NAMES), BTreeSet::from([NOT_IN_USE, BROKEN_UNIT]));
            assert_eq!(refusals(count, MAX_NAMES), BTreeSet::from([BROKEN_UNIT]));
        }
        assert_eq!(refusals(0, NAMES), BTreeSet::from([BROKEN_UNIT]));
        assert_eq!(refusals(255, NAMES), BTreeSet::from([BROKEN_UNIT]));
    }
}
