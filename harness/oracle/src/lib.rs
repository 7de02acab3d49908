//! The oracle: rl-checker's own files, unchanged, as modules of this crate.
//!
//! `build.rs` finds them in the folder that `RL_CHECKER_SRC` names. What they lean on and
//! what is not among them has a stand-in, here or in a crate of its own.

include!(concat!(env!("OUT_DIR"), "/modules.rs"));

mod checker;
pub mod reasons;

/// Stand-in for a module that `structs.rs` names and that is not among the files.
pub mod contracts {
    /// What a function asks of its callers.
    pub struct FnContracts;
}
