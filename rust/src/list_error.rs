//! The error type of lists and sources.

use crate::common::shifted;
use crate::error::{range_at, Part, SyntaxErrorKind};
use crate::rl_cursors::Rejection;
use crate::rl_cursors::{lexer_error, list_error};
use crate::rl_lexer::LexError;
use core::fmt;
use core::ops::Range;

/// The error that ends a list or a source, and its range.
///
/// ```
/// let error = navyspindle::parse_list("1 /* two").find_map(Result::err).unwrap();
/// assert_eq!(error.to_string(), "unclosed block comment at byte 2");
/// assert_eq!(error.range(), 2..8);
/// ```
#[derive(Clone, Debug, PartialEq, Eq, Hash)]
pub struct ListError {
    kind: SyntaxErrorKind,
    range: Range<usize>,
}

impl ListError {
    /// Creates the error of a list from the rejection of its text.
    #[cold]
    pub(crate) fn of_list(text: &str, rejection: Rejection) -> ListError {
        ListError {
            kind: list_error(rejection.kind, &text[rejection.at..]),
            range: range_at(text, rejection.at),
        }
    }

    /// Creates the error for a quote or a comment that isn't closed in a source. The error's range reaches to the end of the text.
    #[cold]
    pub(crate) fn of_source(text: &str, error: LexError) -> ListError {
        ListError {
            kind: lexer_error(error.kind),
            range: error.at..text.len(),
        }
    }

    /// Creates the error for a minus, or for the end of the text, at the byte offset `at`. A literal was expected there.
    #[cold]
    #[inline]
    pub(crate) fn no_literal(at: usize, is_minus: bool) -> ListError {
        let (kind, len) = if is_minus {
            (SyntaxErrorKind::NotALiteral, 1)
        } else {
            (SyntaxErrorKind::EndOfInput(Part::Literal), 0)
        };
        ListError {
            kind,
            range: at..at + len,
        }
    }

    /// Returns the kind of the error.
    ///
    /// ```
    /// use navyspindle::{parse_list, SyntaxErrorKind};
    ///
    /// let error = parse_list("(1)").find_map(Result::err).unwrap();
    /// assert_eq!(error.kind(), SyntaxErrorKind::Group);
    /// ```
    #[must_use]
    pub fn kind(&self) -> SyntaxErrorKind {
        self.kind
    }

    /// Returns the byte offset at which the error's range begins.
    ///
    /// ```
    /// assert_eq!(navyspindle::parse_list("1 word").find_map(Result::err).unwrap().offset(), 2);
    /// ```
    #[must_use]
    pub fn offset(&self) -> usize {
        self.range.start
    }

    /// Returns the error with its range moved forward by `by` bytes. Use it if the parsed text is part of a longer text and begins
    /// at the byte offset `by`.
    ///
    /// ```
    /// let error = navyspindle::parse_list("1 word").find_map(Result::err).unwrap();
    /// assert_eq!(error.shifted(100).range(), 102..106);
    /// ```
    #[must_use]
    pub fn shifted(self, by: usize) -> Self {
        ListError {
            range: shifted(self.range, by),
            ..self
        }
    }

    /// Returns the byte range of the rejected token. For a quote or a comment that isn't closed, the range reaches to the text's
    /// end.
    ///
    /// ```
    /// assert_eq!(navyspindle::parse_list("1 word").find_map(Result::err).unwrap().range(), 2..6);
    /// ```
    #[doc(alias = "span")]
    #[must_use]
    pub fn range(&self) -> Range<usize> {
        self.range.clone()
    }
}

impl fmt::Display for ListError {
    fn fmt(&self, f: &mut fmt::Formatter<'_>) -> fmt::Result {
        write!(f, "{} at byte {}", self.kind, self.range.start)
    }
}

impl core::error::Error for ListError {}
