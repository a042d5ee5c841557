// Rendered from crates/rl_lexer/src/lex_error.rt by tools/render, which erases contracts: change that file, and render again.
//! The errors of the lexer.

use core::fmt;

#[derive(Clone, Copy, PartialEq, Eq, Debug)]
pub struct LexError {
    pub kind: LexKind,
    pub at: usize,
}

#[cfg_attr(not(feature = "__rendered"), expect(dead_code, reason = "Memory: the package's lists and sources take no memory to be cut"))]
#[derive(Clone, Copy, PartialEq, Eq, Debug)]
pub enum LexKind {
    DocComment,
    UnclosedComment,
    UnclosedQuote,
    Lifetime,
    RawIdentifier,
    StrayCharacter,
    UnmatchedClose,
    UnclosedGroup,
    TooDeep,
    Memory,
}

impl LexError {
    #[inline(always)]
    pub fn new(kind: LexKind, at: usize) -> LexError {
        LexError { kind, at }
    }
}

impl LexKind {
    pub fn message(self) -> &'static str {
        match self {
            LexKind::DocComment => "doc comment is not carried",
            LexKind::UnclosedComment => "unclosed block comment",
            LexKind::UnclosedQuote => "unclosed quote",
            LexKind::Lifetime => "lifetime is not carried",
            LexKind::RawIdentifier => "raw identifier is not carried",
            LexKind::StrayCharacter => "stray character",
            LexKind::UnmatchedClose => "unmatched closing delimiter",
            LexKind::UnclosedGroup => "unclosed group",
            LexKind::TooDeep => "groups nested too deep",
            LexKind::Memory => "out of memory",
        }
    }
}

impl fmt::Display for LexKind {
    fn fmt(&self, f: &mut fmt::Formatter<'_>) -> fmt::Result {
        f.pad(self.message())
    }
}

impl core::error::Error for LexKind {}
