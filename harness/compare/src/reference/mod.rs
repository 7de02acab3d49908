//! What `matches`, `unify` and `check_index` answer, by the numbers of a store.
//!
//! Written from the definitions (`Matching.antt`, `Unification.antt` and `Indexing.antt` in the
//! crates' `specs`) and not from the code that is proved of them: plain recursion, a rule a
//! function, in which a pair of types is examined once. It stands in for the oracle, which walks a
//! shared child at each place that has it, where the oracle would not come to an end; where it
//! does, the two are compared. Pages, bindings and units are read as the models read them.
//!
//! - `matching`: `matches`, and the rules that it consists of
//! - `unification`: `unify`
//! - `indexing`: `check_index`

mod indexing;
mod matching;
mod unification;

use crate::call::{Answer, Call, Given, Outcome, Question};
use crate::limits::{Refusal, ABSENT, FUNCTION, NOT_IN_USE, UNKNOWN, WRONG_CHILD_COUNT};
use crate::pairs::lowest;
use crate::types::store::CALLBACK;
use crate::types::Tables;
use crate::units::terms_or_none;
use indexing::Indexing;
use matching::{Checked, Matching};
use unification::Unification;

/// Whether there is a reference for the call.
pub fn answers(call: Call) -> bool {
    matches!(call, Call::Matches | Call::Unify | Call::CheckIndex)
}

/// The expected answer to a question of one of these calls.
pub fn expected(question: &Question) -> Answer {
    let outcome = match question.call {
        Call::Matches => matches(question),
        Call::Unify => unify(question),
        Call::CheckIndex => check_index(question),
        call => unreachable!("{} has no reference", call.name()),
    };
    Answer::new(question, outcome)
}

fn tables(question: &Question) -> Result<Tables, Refusal> {
    Tables::read(&question.page, &question.names, question.lent())
}

/// The checked type of a number.
fn checked(tables: &Tables, number: u32) -> Result<Checked, Refusal> {
    if number >= UNKNOWN {
        return Ok(Checked::Unknown);
    }
    let known = tables.in_use(number % FUNCTION)?;
    match tables.store.entry(known).kind {
        _ if number < FUNCTION => Ok(Checked::Known(known)),
        CALLBACK => Ok(Checked::Function(known)),
        _ => Err(NOT_IN_USE),
    }
}

fn matches(question: &Question) -> Outcome {
    let tables = tables(question)?;
    let [actual, expected] = question.two_numbers();
    let (actual, expected) = (checked(&tables, actual)?, checked(&tables, expected)?);
    let yes = Matching::new(&tables.store.all()).checked_matches(actual, expected);
    Ok(Given { value: yes.into(), ..Given::default() })
}

fn unify(question: &Question) -> Outcome {
    let tables = tables(question)?;
    let before = question.bindings().expect("bindings");
    let bound = tables.bindings(before)?;
    let [expected, actual] = question.two_numbers();
    let (expected, actual) = (tables.in_use(expected)?, tables.in_use(actual)?);
    let entries = tables.store.all();
    let mut unification = Unification::new(&entries, bound);
    let yes = unification.unify(expected, actual)?;
    let out = unification.bound.write(before).to_vec();
    Ok(Given { value: yes.into(), out, ..Given::default() })
}

fn check_index(question: &Question) -> Outcome {
    let mut tables = tables(question)?;
    let [target, key] = question.two_numbers();
    let unit = question.unit();
    let target = lowest(checked(&tables, target), terms_or_none(unit, tables.names.len()));
    let ((target, _), key) = lowest(target, checked(&tables, key))?;
    let entries = tables.store.all();
    let indexed = Indexing::new(&entries, key).check_index(target);
    let value = entered(&mut tables, &indexed.results, question.page.len())?;
    let page = tables.store.write(question.page.len());
    Ok(Given { value, out: [&indexed.errors(), unit].concat(), page })
}

/// The number of the type that is answered: one result is that, several are a union of them.
fn entered(tables: &mut Tables, results: &[u16], length: usize) -> Result<u32, Refusal> {
    match results {
        [] => Ok(ABSENT),
        [result] => Ok((*result).into()),
        _ => {
            let union = indexing::union_of(results).ok_or(WRONG_CHILD_COUNT)?;
            tables.store.make(union, length).map(u32::from)
        }
    }
}
