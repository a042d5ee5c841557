// Rendered from crates/rl_tokens/src/error.rt by tools/render, which erases contracts: change that file, and render again.
//! Errors of lexing and parsing: the kind of an error, and the span of the rejected text.

use crate::rattle_std::prelude::{Drop, String};
use crate::rl_lexer::LexKind;
use crate::rl_syntax::Span;
use crate::rattle_std::alloc::{AllocError, AllocFailed, Allocator, Global};
use crate::rattle_std::fmt;

#[derive(PartialEq, Eq, Debug)]
pub struct Error<A: Allocator = Global> {
    pub span: Span,
    pub kind: ErrorKind<A>,
}

#[derive(PartialEq, Eq, Debug)]
pub enum ErrorKind<A: Allocator = Global> {
    Expected(&'static str),
    EndOfInput(&'static str),
    Unexpected,
    Lex(LexKind),
    Suffix(String<A>),
    NotInteger,
    TooLarge,
    NotFloat,
    Repeated,
    Number(String<A>),
    Memory,
}

impl<A: Allocator> Error<A> {
    pub fn new(span: Span, kind: ErrorKind<A>) -> Error<A> {
        Error { span, kind }
    }

    pub fn out_of_memory(span: Span) -> Error<A> {
        Error {
            span,
            kind: ErrorKind::Memory,
        }
    }

    pub fn of_lexer(kind: LexKind, span: Span) -> Error<A> {
        match kind {
            LexKind::Memory => Error::out_of_memory(span),
            kind => Error {
                span,
                kind: ErrorKind::Lex(kind),
            },
        }
    }
}

impl<A: Allocator> From<AllocError> for Error<A> {
    fn from(_failure: AllocError) -> Error<A> {
        Error::out_of_memory(Span::call_site())
    }
}

impl<T: Drop, A: Allocator> From<AllocFailed<T>> for Error<A> {
    fn from(_failed: AllocFailed<T>) -> Error<A> {
        Error::out_of_memory(Span::call_site())
    }
}

impl<A: Allocator> fmt::Display for ErrorKind<A> {
    fn fmt(&self, f: &mut fmt::Formatter<'_>) -> fmt::Result {
        match self {
            ErrorKind::Expected(word) => write!(f, "expected {word}"),
            ErrorKind::EndOfInput(word) => write!(f, "unexpected end of input, expected {word}"),
            ErrorKind::Unexpected => f.write_str("unexpected token"),
            ErrorKind::Lex(error) => f.write_str(error.message()),
            ErrorKind::Suffix(suffix) => write!(
                f,
                "unexpected suffix `{suffix}` on string literal"
            ),
            ErrorKind::NotInteger => f.write_str("not an integer literal"),
            ErrorKind::TooLarge => f.write_str("integer literal past 128 bits"),
            ErrorKind::NotFloat => f.write_str("not a float literal"),
            ErrorKind::Repeated => f.write_str("repeated name"),
            ErrorKind::Number(words) => f.write_str(words.as_str()),
            ErrorKind::Memory => f.write_str("out of memory"),
        }
    }
}

impl<A: Allocator> fmt::Display for Error<A> {
    fn fmt(&self, f: &mut fmt::Formatter<'_>) -> fmt::Result {
        let kind = &self.kind;
        write!(f, "{kind}")
    }
}

impl<A: Allocator> crate::rattle_std::error::Error for ErrorKind<A> {}

impl<A: Allocator> crate::rattle_std::error::Error for Error<A> {}
