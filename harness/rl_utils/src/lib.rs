//! Stand-in for rl-lang's `rl_utils`, which is not among the source files.
//!
//! It has just what the files name, so that they compile unchanged.

pub mod errors {
    /// An error with its message.
    pub struct Error {
        pub message: String,
    }
}

pub mod source {
    /// A file of source text.
    pub struct SourceFile;
}

pub mod span {
    /// A place in a source text.
    #[derive(Clone, Copy)]
    pub struct Span;
}
