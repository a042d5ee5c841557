//! The error that a text isn't a literal, with its range.

use crate::kind::Kind;
use crate::lit::Lit;
use crate::rl_lenient::number_forms::integer_magnitude_and_suffix;
/// The reason why a text isn't a literal. [`ParseError::kind`] returns it. Printing it gives the message without the byte offset.
///
/// ```
/// use navyspindle::{FlawKind, Lit};
///
/// assert_eq!(Lit::parse("0b2").unwrap_err().kind(), FlawKind::InvalidDigit);
/// assert_eq!(FlawKind::InvalidDigit.to_string(), "invalid digit for this base");
/// assert_eq!(FlawKind::InvalidDigit.message(), "invalid digit for this base");
/// assert_eq!(FlawKind::InvalidDigit.id(), "digit-of-base");
/// ```
pub use crate::rl_strict::FlawKind;
use crate::rl_strict::{explain_missing_value, flaw_above_128_bits, Flaw, LineEnds};
use crate::words::LitVerbatim;
use core::fmt;
use core::ops::Range;

/// The kind of a parse error: the text isn't a literal, or is a literal of another kind than the expected one.
///
/// ```
/// use navyspindle::{FlawKind, Kind, Lit, LitInt, ParseErrorKind};
///
/// let kind = |text| Lit::parse(text).unwrap_err().kind();
/// assert_eq!(kind(r#""\q""#), ParseErrorKind::Flaw(FlawKind::UnknownEscape));
/// assert_eq!(kind("0b102"), ParseErrorKind::Flaw(FlawKind::InvalidDigit));
/// let other = ParseErrorKind::Kind { expected: Kind::Int, found: Kind::Float };
/// assert_eq!(LitInt::parse("1.5").unwrap_err().kind(), other);
/// ```
#[doc(alias = "Error")]
#[derive(Clone, Copy, Debug, PartialEq, Eq, Hash)]
#[non_exhaustive]
pub enum ParseErrorKind {
    /// The text isn't a Rust literal. The `FlawKind` is the reason.
    Flaw(FlawKind),
    /// The text is a literal of another kind than the one that the caller requested, or doesn't begin like a literal.
    Kind {
        /// The kind that the caller requested.
        expected: Kind,
        /// The kind of the literal in the text. It is `Verbatim` if the text doesn't begin like a literal.
        found: Kind,
    },
}

/// Whether the error is a flaw of this kind.
impl PartialEq<FlawKind> for ParseErrorKind {
    #[inline]
    fn eq(&self, other: &FlawKind) -> bool {
        *self == ParseErrorKind::Flaw(*other)
    }
}

impl fmt::Display for ParseErrorKind {
    fn fmt(&self, f: &mut fmt::Formatter<'_>) -> fmt::Result {
        match self {
            ParseErrorKind::Flaw(kind) => kind.fmt(f),
            ParseErrorKind::Kind {
                expected,
                found: Kind::Verbatim,
            } => write!(f, "expected {expected}"),
            ParseErrorKind::Kind { expected, found } => {
                write!(f, "expected {expected}, found {found}")
            }
        }
    }
}

impl core::error::Error for ParseErrorKind {}

/// The reason why a text isn't a literal, and its byte range in the text.
///
/// ```
/// use navyspindle::{FlawKind, Lit};
///
/// let text = r#""a\u{D800}b""#;
/// let error = Lit::parse(text).unwrap_err();
/// assert_eq!(error.kind(), FlawKind::Surrogate);
/// assert_eq!((&text[error.range()], &text[error.piece()]), ("}", r"\u{D800}"));
/// assert_eq!(error.to_string(), "a surrogate isn't a character at byte 9");
/// ```
#[doc(alias = "Error")]
#[derive(Clone, Copy, Debug, PartialEq, Eq, Hash)]
pub struct ParseError {
    kind: ParseErrorKind,
    from: usize,
    lo: usize,
    hi: usize,
}

impl ParseError {
    /// Returns the reason why Rust has no value for the text, or `None` if it has one.
    #[cold]
    #[inline]
    pub(crate) fn of(text: &str) -> Option<ParseError> {
        explain_missing_value(text, LineEnds::Text, true).map(ParseError::of_flaw)
    }

    #[inline]
    pub(crate) fn of_flaw(flaw: Flaw) -> ParseError {
        let is_open = flaw.kind == FlawKind::Unclosed && flaw.from == flaw.hi;
        ParseError {
            kind: ParseErrorKind::Flaw(flaw.kind),
            from: if is_open { 0 } else { flaw.from },
            lo: flaw.lo,
            hi: flaw.hi,
        }
    }

    /// Returns the error for a text that `syn` doesn't read as an integer up to 128 bits. The text is a larger integer, or isn't an
    /// integer.
    #[cold]
    #[inline]
    pub(crate) fn of_integer(literal: LitVerbatim<'_>) -> ParseError {
        let text = literal.text();
        match integer_magnitude_and_suffix(text) {
            Some(integer) => {
                ParseError::of_flaw(flaw_above_128_bits(text, text.len() - integer.suffix.len()))
            }
            None => ParseError::of_kind(Kind::Int, Ok(Lit::Verbatim(literal))),
        }
    }

    /// Returns the error for a parse result that isn't a literal of the kind `expected`. If Rust has no value for the text, the error
    /// is the reason for that, or the expected kind if the text doesn't begin like a literal. Otherwise the error has both kinds.
    #[cold]
    #[inline]
    pub(crate) fn of_kind(expected: Kind, found: Result<Lit<'_>, ParseError>) -> ParseError {
        let of = |found, from, lo, hi| ParseError {
            kind: ParseErrorKind::Kind { expected, found },
            from,
            lo,
            hi,
        };
        let error = match &found {
            Ok(Lit::Verbatim(literal)) => literal.explain(),
            Ok(_) => None,
            Err(error) => Some(*error),
        };
        match (error, found) {
            (Some(it), _) if it.kind == FlawKind::NotALiteral => {
                of(Kind::Verbatim, it.from, it.lo, it.hi)
            }
            (Some(error), _) | (None, Err(error)) => error,
            (None, Ok(literal)) => of(literal.kind(), 0, 0, literal.text().len()),
        }
    }

    /// Returns the kind of the error.
    ///
    /// ```
    /// use navyspindle::{FlawKind, Lit};
    ///
    /// assert_eq!(Lit::parse("").unwrap_err().kind(), FlawKind::Empty);
    /// ```
    #[inline]
    #[must_use]
    pub fn kind(&self) -> ParseErrorKind {
        self.kind
    }

    /// Returns the byte offset at which [`range`](ParseError::range) begins. The error's message names this offset.
    ///
    /// ```
    /// use navyspindle::Lit;
    ///
    /// assert_eq!(Lit::parse(r#""a\qb""#).unwrap_err().offset(), 3);
    /// ```
    #[inline]
    #[must_use]
    pub fn offset(&self) -> usize {
        self.lo
    }

    /// Returns the error with its ranges moved forward by `by` bytes. Use it if the literal is part of a longer text and begins at
    /// the byte offset `by`.
    ///
    /// ```
    /// use navyspindle::Lit;
    ///
    /// let error = Lit::parse(r#""a\qb""#).unwrap_err().shifted(100);
    /// assert_eq!((error.range(), error.piece()), (103..104, 102..104));
    /// assert_eq!(error.to_string(), "unknown escape at byte 103");
    /// ```
    #[inline]
    #[must_use]
    pub fn shifted(self, by: usize) -> Self {
        ParseError {
            from: self.from + by,
            lo: self.lo + by,
            hi: self.hi + by,
            ..self
        }
    }

    /// Returns the byte range of the first character that can't continue a literal.
    ///
    /// The text before this character begins some literal. If the text ends too soon, the range is empty at the text's end. For an
    /// integer above 128 bits the range is the first character of the suffix, or empty without a suffix. For a literal of another
    /// kind the range is the whole text.
    ///
    /// ```
    /// use navyspindle::Lit;
    ///
    /// assert_eq!(Lit::parse(r#""a\qb""#).unwrap_err().range(), 3..4);
    /// assert_eq!(Lit::parse(r#""ab"#).unwrap_err().range(), 3..3);
    /// ```
    #[doc(alias = "span")]
    #[inline]
    #[must_use]
    pub fn range(&self) -> Range<usize> {
        self.lo..self.hi
    }

    /// Returns the byte range of the piece of text that the error spoils, up to the end of [`range`](ParseError::range).
    ///
    /// In an escape the piece begins at the backslash. In a character or a byte literal it begins after the opening quote. In a
    /// number or an identifier it begins at the text's start. If the closing quote is missing, it is the whole text, or the escape
    /// at the text's end. Otherwise it is only the wrong character.
    ///
    /// ```
    /// use navyspindle::Lit;
    ///
    /// assert_eq!(Lit::parse(r#""a\qb""#).unwrap_err().piece(), 2..4);
    /// ```
    #[inline]
    #[must_use]
    pub fn piece(&self) -> Range<usize> {
        self.from..self.hi
    }
}

impl fmt::Display for ParseError {
    fn fmt(&self, f: &mut fmt::Formatter<'_>) -> fmt::Result {
        write!(f, "{} at byte {}", self.kind, self.lo)
    }
}

impl core::error::Error for ParseError {}
