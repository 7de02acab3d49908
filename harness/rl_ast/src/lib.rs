//! Stand-in for rl-lang's `rl_ast`, which is not among the source files.
//!
//! It has just what the files name, so that they compile unchanged.

pub mod statements;

/// The syntax tree, of which only a checker's field is made.
pub struct Ast;
