//! What the exported calls must answer, and the inputs to ask them.
//!
//! - `call`: the calls, a question put to one of them, and its answer
//! - `limits`: document 01's limits and refusal numbers
//! - `names`, `units`, `pairs`, `types`, `answers`: the expected answers, one file or folder per
//!   module of the translation
//! - `reference`: the answers of three calls, by the numbers of a store alone
//! - `formulas`: whole formulas, and what demand 3 claims of their routes
//! - `inputs`: the questions of a comparison, one file per module
//! - `comparison`: asks both sides and counts where they differ
//! - `sample`: the stored sample, its chosen rows and its format
//! - `exports`: how the static library declares the calls
//!
//! Nothing here calls the static library; only the programs `compare` and `measure` do.

pub mod answers;
pub mod call;
pub mod comparison;
pub mod expected;
#[cfg(feature = "staticlib")]
pub mod exports;
pub mod formulas;
pub mod inputs;
pub mod limits;
pub mod names;
pub mod pairs;
pub mod random;
pub mod reference;
pub mod sample;
pub mod types;
pub mod units;
