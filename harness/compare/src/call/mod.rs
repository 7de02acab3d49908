//! The exported calls, a question put to one of them, and its answer.

mod question;

pub use question::{Operand, Pages, Question};

use crate::limits::{
    Refusal, ANSWER_BYTES, BINDINGS_BYTES, BROKEN_TABLE, BROKEN_UNIT, EXPONENT_TOO_LARGE,
    FACTOR_BYTES, MALFORMED_NAME, MAX_NAME_BYTES, NOT_IN_USE, NO_ROOM, TEXT_BYTES, TOO_DEEP,
    TOO_MANY_SYMBOLS, TYPE_BYTES, UNDEFINED_CODE, UNIT_BYTES, WRONG_CHILD_COUNT,
};

/// The exported calls. The numbers are the call bytes of the sample.
#[derive(Debug, Clone, Copy, PartialEq, Eq, PartialOrd, Ord, Hash)]
#[repr(u8)]
pub enum Call {
    EmptyNames = 1,
    AddName = 2,
    FindName = 3,
    ReadName = 4,
    UnitForm = 5,
    Product = 6,
    Exponent = 7,
    IsDimensionless = 8,
    UnitText = 9,
    EmptyPairs = 10,
    InsertPair = 11,
    Canonical = 12,
    Factor = 13,
    Canonicalize = 14,
    IsConvertibleTo = 15,
    EmptyTypes = 16,
    MakeType = 17,
    ReadType = 18,
    Matches = 19,
    HasGeneric = 20,
    IntoConst = 21,
    Unify = 22,
    UnifyArg = 23,
    Substitute = 24,
    CheckBinaryOperator = 25,
    CheckUnaryOperator = 26,
    CheckIndex = 27,
}

impl Call {
    pub const ALL: [Call; 27] = [
        Call::EmptyNames,
        Call::AddName,
        Call::FindName,
        Call::ReadName,
        Call::UnitForm,
        Call::Product,
        Call::Exponent,
        Call::IsDimensionless,
        Call::UnitText,
        Call::EmptyPairs,
        Call::InsertPair,
        Call::Canonical,
        Call::Factor,
        Call::Canonicalize,
        Call::IsConvertibleTo,
        Call::EmptyTypes,
        Call::MakeType,
        Call::ReadType,
        Call::Matches,
        Call::HasGeneric,
        Call::IntoConst,
        Call::Unify,
        Call::UnifyArg,
        Call::Substitute,
        Call::CheckBinaryOperator,
        Call::CheckUnaryOperator,
        Call::CheckIndex,
    ];

    /// The call's name, without the `riddlepoppy_` of the exported symbol.
    pub fn name(self) -> &'static str {
        match self {
            Call::EmptyNames => "empty_names",
            Call::AddName => "add_name",
            Call::FindName => "find_name",
            Call::ReadName => "read_name",
            Call::UnitForm => "unit_form",
            Call::Product => "product",
            Call::Exponent => "exponent",
            Call::IsDimensionless => "is_dimensionless",
            Call::UnitText => "unit_text",
            Call::EmptyPairs => "empty_pairs",
            Call::InsertPair => "insert_pair",
            Call::Canonical => "canonical",
            Call::Factor => "factor",
            Call::Canonicalize => "canonicalize",
            Call::IsConvertibleTo => "is_convertible_to",
            Call::EmptyTypes => "empty_types",
            Call::MakeType => "make_type",
            Call::ReadType => "read_type",
            Call::Matches => "matches",
            Call::HasGeneric => "has_generic",
            Call::IntoConst => "into_const",
            Call::Unify => "unify",
            Call::UnifyArg => "unify_arg",
            Call::Substitute => "substitute",
            Call::CheckBinaryOperator => "check_binary_operator",
            Call::CheckUnaryOperator => "check_unary_operator",
            Call::CheckIndex => "check_index",
        }
    }

    /// Every refusal that the call can give, the lowest first.
    pub fn refusals(self) -> &'static [Refusal] {
        match self {
            Call::EmptyNames | Call::EmptyPairs | Call::EmptyTypes => &[BROKEN_TABLE],
            Call::AddName => &[BROKEN_TABLE, MALFORMED_NAME, NO_ROOM],
            Call::FindName => &[BROKEN_TABLE, MALFORMED_NAME],
            Call::ReadName | Call::Canonical | Call::Factor => &[BROKEN_TABLE, NOT_IN_USE],
            Call::ReadType | Call::Matches | Call::HasGeneric => &[BROKEN_TABLE, NOT_IN_USE],
            Call::UnitForm | Call::Exponent | Call::IsDimensionless => &[BROKEN_UNIT],
            Call::Product => &[BROKEN_UNIT, EXPONENT_TOO_LARGE, TOO_MANY_SYMBOLS],
            Call::UnitText | Call::Canonicalize | Call::IsConvertibleTo => {
                &[BROKEN_TABLE, NOT_IN_USE, BROKEN_UNIT]
            }
            Call::InsertPair | Call::IntoConst | Call::Unify | Call::UnifyArg => {
                &[BROKEN_TABLE, NOT_IN_USE, NO_ROOM]
            }
            Call::Substitute => &[BROKEN_TABLE, NOT_IN_USE, TOO_DEEP, NO_ROOM],
            Call::MakeType => {
                &[UNDEFINED_CODE, BROKEN_TABLE, NOT_IN_USE, WRONG_CHILD_COUNT, TOO_DEEP, NO_ROOM]
            }
            Call::CheckBinaryOperator => &[
                UNDEFINED_CODE,
                BROKEN_TABLE,
                NOT_IN_USE,
                BROKEN_UNIT,
                EXPONENT_TOO_LARGE,
                TOO_MANY_SYMBOLS,
            ],
            Call::CheckUnaryOperator => {
                &[UNDEFINED_CODE, BROKEN_TABLE, NOT_IN_USE, BROKEN_UNIT, WRONG_CHILD_COUNT, NO_ROOM]
            }
            Call::CheckIndex => {
                &[BROKEN_TABLE, NOT_IN_USE, BROKEN_UNIT, WRONG_CHILD_COUNT, NO_ROOM]
            }
        }
    }

    /// Every reason that an error of the call's answer can have.
    pub fn reasons(self) -> &'static [u8] {
        match self {
            Call::CheckBinaryOperator => &[1, 2, 3, 4, 5, 7, 8],
            Call::CheckUnaryOperator => &[1, 5, 6, 7, 8],
            Call::CheckIndex => &[7, 8, 9, 10],
            _ => &[],
        }
    }

    /// The length of the call's `out` array; 0 where it has none.
    pub fn out_length(self) -> usize {
        match self {
            Call::ReadName => MAX_NAME_BYTES,
            Call::Product | Call::Canonicalize => UNIT_BYTES,
            Call::UnitText => TEXT_BYTES,
            Call::Factor => FACTOR_BYTES,
            Call::ReadType => TYPE_BYTES,
            Call::Unify | Call::UnifyArg => BINDINGS_BYTES,
            _ if self.is_about_answers() => ANSWER_BYTES,
            _ => 0,
        }
    }

    /// Whether the page is lent for writing.
    pub fn writes_page(self) -> bool {
        let of_types = [Call::EmptyTypes, Call::MakeType, Call::IntoConst, Call::Substitute];
        matches!(self, Call::EmptyNames | Call::AddName | Call::EmptyPairs | Call::InsertPair)
            || of_types.contains(&self)
            || matches!(self, Call::CheckUnaryOperator | Call::CheckIndex)
    }

    /// Whether `out` is the bindings, lent for writing.
    pub fn writes_bindings(self) -> bool {
        matches!(self, Call::Unify | Call::UnifyArg)
    }

    /// Whether the page is a pair table's.
    pub fn is_about_pairs(self) -> bool {
        (Call::EmptyPairs..Call::EmptyTypes).contains(&self)
    }

    /// Whether the page is a store of types, and the call answers nothing of an operator or
    /// an index.
    pub fn is_about_types(self) -> bool {
        (Call::EmptyTypes..Call::CheckBinaryOperator).contains(&self)
    }

    /// Whether the call answers an operator or an index.
    pub fn is_about_answers(self) -> bool {
        self >= Call::CheckBinaryOperator
    }

    /// How many numbers `first` begins with, of a call that answers an operator or an index.
    fn numbers(self) -> usize {
        match self {
            Call::CheckBinaryOperator => 3,
            _ => 2,
        }
    }
}

/// What a call gives where it is not refused.
#[derive(Debug, Default)]
pub struct Given {
    pub value: u32,
    /// What is written to `out`, before the zeros.
    pub out: Vec<u8>,
    /// The page afterwards, of a call that writes it.
    pub page: Vec<u8>,
}

pub type Outcome = Result<Given, Refusal>;

/// All that can be seen of a call after its return.
#[derive(Debug, Clone, PartialEq, Eq)]
pub struct Answer {
    pub refusal: u32,
    pub value: u32,
    /// The whole `out` array, or the bindings; empty where the call has neither.
    pub out: Vec<u8>,
    /// The page afterwards; empty where the call does not write it.
    pub page: Vec<u8>,
}

impl Answer {
    /// An outcome as the caller sees it: `out` is filled with zeros, and a
    /// refusal answers zeros and leaves the page and the bindings as they were.
    pub fn new(question: &Question, outcome: Outcome) -> Self {
        let (refusal, given) = match outcome {
            Ok(given) => (0, given),
            Err(refusal) => (refusal, unchanged(question)),
        };
        let mut out = given.out;
        out.resize(question.call.out_length(), 0);
        Self { refusal, value: given.value, out, page: given.page }
    }

    /// Whether the call says yes or, of an operator or an index, no error is answered.
    pub fn is_yes(&self, call: Call) -> bool {
        match call.is_about_answers() {
            true => self.refusal == 0 && self.out[0] == 0,
            false => self.value == 1,
        }
    }
}

/// What a refusal leaves.
fn unchanged(question: &Question) -> Given {
    let Question { call, page, second, .. } = question;
    let page = if call.writes_page() { page.clone() } else { Vec::new() };
    let out = if call.writes_bindings() { second.clone() } else { Vec::new() };
    Given { value: 0, out, page }
}

/// Every outcome that there can be: each call with each of its refusals, and with 0 for none.
#[cfg(test)]
pub fn all_outcomes() -> std::collections::BTreeSet<(Call, u32)> {
    let outcomes =
        |call: Call| [0].iter().chain(call.refusals()).map(move |&refusal| (call, refusal));
    Call::ALL.into_iter().flat_map(outcomes).collect()
}

/// Every reason that there can be, with each call.
#[cfg(test)]
pub fn all_reasons() -> std::collections::BTreeSet<(Call, u8)> {
    let reasons = |call: Call| call.reasons().iter().map(move |&reason| (call, reason));
    Call::ALL.into_iter().flat_map(reasons).collect()
}

/// The reasons of the errors that an answer tells of.
#[cfg(test)]
pub fn reasons_of(call: Call, answer: &Answer) -> Vec<(Call, u8)> {
    match call.is_about_answers() {
        true => answer.out[1..3].iter().map(|&r| (call, r)).filter(|&(_, r)| r != 0).collect(),
        false => Vec::new(),
    }
}
