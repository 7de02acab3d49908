//! Stand-in for rl-lang's `rl_commons`, which is not among the source files.
//!
//! It has just what the files name, so that they compile unchanged.

/// The tree of the standard library's modules.
pub struct ModuleNames;

/// The signature of a function of the standard library.
pub struct StdFn;
