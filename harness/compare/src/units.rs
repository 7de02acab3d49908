//! The expected answers of the unit calls.
//!
//! Every result comes from the oracle's `Unit`; this file only reads unit bytes,
//! puts names to symbol numbers, and applies document 01's limits to what the
//! oracle, which has none, answers.

use crate::call::{Given, Outcome};
use crate::limits::{
    Refusal, BROKEN_TABLE, BROKEN_UNIT, EXPONENT_TOO_LARGE, MAX_EXPONENT, MAX_SYMBOLS, NOT_IN_USE,
    NO_UNIT, TOO_MANY_SYMBOLS,
};
use crate::names::Names;
use oracle::units::Unit;

/// A symbol number and its exponent.
pub type Term = (u8, i16);

/// The bytes of any terms, in form or not.
pub fn unit_bytes(terms: &[Term]) -> Vec<u8> {
    let mut bytes = vec![terms.len() as u8];
    for (symbol, exponent) in terms {
        bytes.push(*symbol);
        bytes.extend(exponent.to_be_bytes());
    }
    bytes
}

/// Terms by their outer shape: a count of at most eight and the length it asks for.
fn shaped_terms(unit: &[u8]) -> Option<Vec<Term>> {
    let (count, body) = unit.split_first()?;
    let count = usize::from(*count);
    if count > MAX_SYMBOLS || body.len() != 3 * count {
        return None;
    }
    let term = |part: &[u8]| (part[0], i16::from_be_bytes([part[1], part[2]]));
    Some(body.chunks(3).map(term).collect())
}

/// Symbols ascending, each exponent nonzero and within ±1,000.
fn in_form(terms: &[Term]) -> bool {
    let ascending = terms.windows(2).all(|pair| pair[0].0 < pair[1].0);
    let allowed = |&(_, exponent): &Term| exponent != 0 && within_limit(exponent.into());
    ascending && terms.iter().all(allowed)
}

fn within_limit(exponent: i32) -> bool {
    (-MAX_EXPONENT..=MAX_EXPONENT).contains(&exponent)
}

/// The terms of a unit in form.
fn terms_of(unit: &[u8]) -> Result<Vec<Term>, Refusal> {
    shaped_terms(unit).filter(|terms| in_form(terms)).ok_or(BROKEN_UNIT)
}

/// The symbol bytes that are there: the first of each three after the count, as many as it
/// says, however long the bytes are. A count of 255 says no unit, and so no symbol.
fn symbol_bytes(unit: &[u8]) -> impl Iterator<Item = u8> + '_ {
    let count = unit.first().filter(|&&count| count != NO_UNIT[0]);
    let count = count.map_or(0, |&count| count.into());
    unit.iter().skip(1).step_by(3).take(count).copied()
}

/// The terms of a unit in form where so many numbers are in use. A symbol not in
/// use comes before any other fault of the bytes.
pub fn terms_in_use(unit: &[u8], in_use: usize) -> Result<Vec<Term>, Refusal> {
    if symbol_bytes(unit).any(|symbol| usize::from(symbol) >= in_use) {
        return Err(NOT_IN_USE);
    }
    terms_of(unit)
}

/// The same of bytes that may say no unit, which has no terms.
pub fn terms_or_none(unit: &[u8], in_use: usize) -> Result<Option<Vec<Term>>, Refusal> {
    match unit == NO_UNIT {
        true => Ok(None),
        false => terms_in_use(unit, in_use).map(Some),
    }
}

/// The oracle's unit of the terms, built by its own functions.
pub fn oracle_unit(terms: &[Term], name: impl Fn(u8) -> String) -> Unit {
    terms.iter().fold(Unit::dimensionless(), |unit, &(symbol, exponent)| {
        unit.multiply(&Unit::powers(name(symbol), exponent.into()))
    })
}

/// A name of its own for each symbol, where no table gives one. Their byte
/// order is not the order of the numbers, so that no answer can lean on either.
pub fn stand_in_name(symbol: u8) -> String {
    format!("s{symbol}")
}

pub fn unit_form(unit: &[u8]) -> Outcome {
    terms_of(unit)?;
    Ok(Given::default())
}

pub fn product(left: &[u8], right: &[u8], quotient: bool) -> Outcome {
    let (left, right) = (terms_of(left)?, terms_of(right)?);
    let left_unit = oracle_unit(&left, stand_in_name);
    let right_unit = oracle_unit(&right, stand_in_name);
    let result =
        if quotient { left_unit.divide(&right_unit) } else { left_unit.multiply(&right_unit) };

    let terms = result_terms(&result, &left, &right, stand_in_name)?;
    Ok(Given { out: unit_bytes(&terms), ..Given::default() })
}

/// The terms of a unit that the oracle answers of two, where they are within the limits.
pub fn result_terms(
    result: &Unit,
    left: &[Term],
    right: &[Term],
    name: impl Fn(u8) -> String,
) -> Result<Vec<Term>, Refusal> {
    let exponents = symbols_of(left, right).into_iter();
    let exponents = exponents.map(|symbol| (symbol, result.exponent(&name(symbol))));
    let exponents: Vec<(u8, i32)> = exponents.filter(|&(_, exponent)| exponent != 0).collect();
    if !exponents.iter().all(|&(_, exponent)| within_limit(exponent)) {
        return Err(EXPONENT_TOO_LARGE);
    }
    if exponents.len() > MAX_SYMBOLS {
        return Err(TOO_MANY_SYMBOLS);
    }
    let terms: Vec<Term> =
        exponents.iter().map(|&(symbol, exponent)| (symbol, exponent as i16)).collect();
    assert_eq!(oracle_unit(&terms, name), *result, "the oracle's result is read back whole");
    Ok(terms)
}

/// The symbols of both operands, ascending, each once.
fn symbols_of(left: &[Term], right: &[Term]) -> Vec<u8> {
    let mut symbols: Vec<u8> = left.iter().chain(right).map(|&(symbol, _)| symbol).collect();
    symbols.sort_unstable();
    symbols.dedup();
    symbols
}

pub fn exponent(unit: &[u8], symbol: u16) -> Outcome {
    let unit = oracle_unit(&terms_of(unit)?, stand_in_name);
    // A number of 256 or more is no symbol of any unit.
    let exponent = u8::try_from(symbol).map_or(0, |symbol| unit.exponent(&stand_in_name(symbol)));
    Ok(Given { value: u32::from(exponent as i16 as u16), ..Given::default() })
}

pub fn is_dimensionless(unit: &[u8]) -> Outcome {
    // No unit counts as unitless; the oracle's `Unit` has no such value.
    let yes = unit == NO_UNIT || oracle_unit(&terms_of(unit)?, stand_in_name).is_dimensionless();
    Ok(Given { value: yes.into(), ..Given::default() })
}

pub fn unit_text(names: &[u8], unit: &[u8]) -> Outcome {
    let names = Names::read(names).ok_or(BROKEN_TABLE)?.strings();
    let terms = terms_in_use(unit, names.len())?;
    let text = oracle_unit(&terms, |symbol| names[usize::from(symbol)].clone()).to_string();
    Ok(Given { value: text.len() as u32, out: text.into_bytes(), ..Given::default() })
}

#[cfg(test)]
mod tests {
    use super::*;
    use crate::limits::TEXT_BYTES;

    fn text(unit: &[Term]) -> String {
        let given = unit_text(b"\x00\x03\x02mm\x01s\x01m", &unit_bytes(unit)).expect("a text");
        String::from_utf8(given.out).expect("ASCII")
    }

    #[test]
    fn document_01s_products() {
        let (m_per_s, s) = (unit_bytes(&[(0, 1), (1, -1)]), unit_bytes(&[(1, 1)]));
        assert_eq!(product(&m_per_s, &s, false).unwrap().out, unit_bytes(&[(0, 1)]));
        let (m_1000, m) = (unit_bytes(&[(0, 1000)]), unit_bytes(&[(0, 1)]));
        assert_eq!(product(&m_1000, &m, true).unwrap().out, unit_bytes(&[(0, 999)]));
        assert_eq!(product(&m_1000, &m, false).unwrap_err(), EXPONENT_TOO_LARGE);
        let eight: Vec<Term> = (1..=8).map(|symbol| (symbol, 1)).collect();
        assert_eq!(product(&unit_bytes(&eight), &m, false).unwrap_err(), TOO_MANY_SYMBOLS);
        let m_off_limits_and_nine =
            product(&unit_bytes(&eight), &unit_bytes(&[(0, 1), (8, 1000)]), false);
        assert_eq!(m_off_limits_and_nine.unwrap_err(), EXPONENT_TOO_LARGE);
    }

    #[test]
    fn document_01s_texts() {
        assert_eq!(text(&[]), "1");
        assert_eq!(text(&[(2, -1)]), "1/m");
        assert_eq!(text(&[(0, 1), (1, -2), (2, 1)]), "m*mm/s^2");
    }

    #[test]
    fn the_longest_text_fills_out() {
        let names = (0..8).map(|number| format!("n{number:0>30}").into_bytes()).collect();
        let page = Names(names).write(400).expect("room");
        let terms: Vec<Term> = (0..8).map(|symbol| (symbol, -1000)).collect();
        let given = unit_text(&page, &unit_bytes(&terms)).expect("a text");
        assert_eq!(given.out.len(), TEXT_BYTES);
    }

    #[test]
    fn no_unit_is_unitless_and_nothing_else() {
        assert_eq!(is_dimensionless(&NO_UNIT).unwrap().value, 1);
        assert_eq!(unit_form(&NO_UNIT).unwrap_err(), BROKEN_UNIT);
        assert_eq!(exponent(&NO_UNIT, 0).unwrap_err(), BROKEN_UNIT);
        assert_eq!(is_dimensionless(&[255, 0]).unwrap_err(), BROKEN_UNIT);
    }

    #[test]
    fn a_symbol_not_in_use_comes_before_any_other_fault() {
        let refusal = |unit: &[u8]| terms_in_use(unit, 9).unwrap_err();
        let nine: Vec<Term> = (0..9).map(|symbol| (symbol, 1)).collect();
        let nine = unit_bytes(&nine);
        assert_eq!(refusal(&nine), BROKEN_UNIT);
        for (place, cut) in [(1, 28), (22, 28), (25, 28), (25, 27), (25, 26), (1, 2), (1, 3)] {
            let mut unit = nine[..cut].to_vec();
            unit[place] = 9;
            assert_eq!(refusal(&unit), NOT_IN_USE, "{place} {cut}");
        }
        // Neither an exponent's bytes nor those past the count are symbols.
        let others: [&[u8]; 6] =
            [&[], &[9], &[1, 0, 9], &[1, 0, 0, 1, 9], &[0, 9], &[255, 9, 0, 1]];
        for unit in others {
            assert_eq!(refusal(unit), BROKEN_UNIT, "{unit:?}");
        }
        assert_eq!(refusal(&[254, 0, 0, 1, 0, 0, 1, 9]), NOT_IN_USE);
        assert_eq!(terms_in_use(&[1, 255, 0], 256).unwrap_err(), BROKEN_UNIT);
    }

    #[test]
    fn no_unit_has_a_wide_symbol() {
        let unit = unit_bytes(&[(0, 7), (255, -7)]);
        let value = |symbol: u16| exponent(&unit, symbol).unwrap().value;
        assert_eq!((value(0), value(255)), (7, 65_529));
        assert_eq!((value(256), value(511), value(65_535)), (0, 0, 0));
        assert_eq!(exponent(&[9], 256).unwrap_err(), BROKEN_UNIT);
    }
}
