//! Document 01's limits, and its numbers for the refusals used so far.

pub const MAX_NAMES: usize = 256;
pub const MAX_NAME_BYTES: usize = 31;
pub const MAX_SYMBOLS: usize = 8;
pub const MAX_EXPONENT: i32 = 1000;
pub const MAX_PAIRS: usize = 512;
pub const MAX_TYPES: usize = 4096;
pub const MAX_CHILDREN: usize = 16;
pub const MAX_DEPTH: usize = 32;
pub const MAX_BINDINGS: usize = 32;

/// Kinds 0 to 18 are types "always present under that number".
pub const FIXED_TYPES: usize = 19;

/// How many types a store holds, above the fixed ones.
pub const MAX_ENTRIES: usize = MAX_TYPES - FIXED_TYPES;

/// What `read_type` writes: the depth, the child count, the kind, and two bytes a child.
pub const TYPE_BYTES: usize = 3 + 2 * MAX_CHILDREN;

/// The count byte, then the names, then two bytes a type.
pub const BINDINGS_BYTES: usize = 1 + 3 * MAX_BINDINGS;

/// A checked type passes as a number: from here on it is a Function, below it is Known.
pub const FUNCTION: u32 = 65_536;

/// From here on it is Unknown.
pub const UNKNOWN: u32 = 2 * FUNCTION;

/// A checked type that is answered has sixteen bits: Known is its type's number, a Function
/// that number above this one, and Unknown is `ABSENT`.
pub const ANSWERED_FUNCTION: u32 = 32_768;

/// Count byte, then a symbol byte and two exponent bytes for each symbol.
pub const UNIT_BYTES: usize = 1 + 3 * MAX_SYMBOLS;

/// `1/`, then eight of the longest names, each with `^1000`, and seven `*`.
pub const TEXT_BYTES: usize = 2 + MAX_SYMBOLS * (MAX_NAME_BYTES + 5) + (MAX_SYMBOLS - 1);

/// The unit bytes that say "no unit".
pub const NO_UNIT: [u8; 1] = [255];

pub const FACTOR_BYTES: usize = 8;

/// An answer beside its type: how many errors, the reasons of two, the count of failing
/// members and the first or the first pair of them, and the unit.
pub const ANSWER_BYTES: usize = 1 + 2 + 4 + 2 * 2 + UNIT_BYTES;

/// A pair's symbol byte, base byte and factor.
pub const PAIR_BYTES: usize = 2 + FACTOR_BYTES;

/// A pair table without pairs: the count, and a parent byte for each symbol.
pub const EMPTY_PAIRS_BYTES: usize = 2 + MAX_NAMES;

/// What `find_name` answers where the table has no such name, `factor` where no pair has the
/// symbol, and `into_const`, an operator or an index where the type is Unknown.
pub const ABSENT: u32 = 65_535;

/// A number of document 01's table of refusals.
pub type Refusal = u32;

/// A type's kind or an operator's code undefined.
pub const UNDEFINED_CODE: Refusal = 1;
/// A lent store or table or the bindings break their form.
pub const BROKEN_TABLE: Refusal = 2;
/// A name or type number not in use.
pub const NOT_IN_USE: Refusal = 3;
/// A name malformed.
pub const MALFORMED_NAME: Refusal = 4;
/// A unit's form broken.
pub const BROKEN_UNIT: Refusal = 5;
/// A child count wrong, or a result union wider than 16.
pub const WRONG_CHILD_COUNT: Refusal = 6;
/// A type deeper than 32.
pub const TOO_DEEP: Refusal = 7;
/// A result exponent outside ±1,000.
pub const EXPONENT_TOO_LARGE: Refusal = 8;
/// A result with nine symbols or more.
pub const TOO_MANY_SYMBOLS: Refusal = 9;
/// One more name, pair, type or binding than the limit, or than the lent page holds.
pub const NO_ROOM: Refusal = 10;
