//! Stand-in for rl-lang's `rl_lexer`, which is not among the source files.
//!
//! It has just what the files name, so that they compile unchanged.

pub mod tokentypes {
    /// An operator, in the order of document 01's codes 1 to 13.
    #[derive(Debug, Clone, Copy, PartialEq, Eq)]
    pub enum TokenType {
        Plus,
        Minus,
        Star,
        Slash,
        Less,
        Greater,
        LessEqual,
        GreaterEqual,
        Compare,
        BangEqual,
        And,
        Or,
        Bang,
    }
}
