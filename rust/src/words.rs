//! The literals `true` and `false`, and texts that aren't literals.

use crate::common::{literal_type, text_type};
#[cfg(feature = "flaws")]
use crate::flaws::{guess_kind, pieces, Flaws, Pieces};
#[cfg(feature = "flaws")]
use crate::kind::Kind;
use crate::parse_error::ParseError;
use alloc::borrow::Cow;

/// A `bool` literal: `true` or `false`.
///
/// With the feature `writers`, `LitBool::new` returns the literal of a `bool`.
///
/// ```
/// use navyspindle::LitBool;
///
/// assert!(LitBool::parse("true")?.value());
/// # Ok::<(), navyspindle::ParseError>(())
/// ```
#[doc(alias = "BoolLit")]
#[derive(Clone)]
#[repr(C)]
pub struct LitBool<'t> {
    text: Cow<'t, str>,
    suffix_at: usize,
    value: bool,
}

literal_type!(LitBool, Bool(value), "true", "");

impl<'t> LitBool<'t> {
    #[inline]
    pub(crate) fn of(text: Cow<'t, str>, value: bool) -> Self {
        let suffix_at = text.len();
        LitBool {
            text,
            suffix_at,
            value,
        }
    }

    /// Returns the `bool` that the literal represents.
    ///
    /// ```
    /// use navyspindle::LitBool;
    ///
    /// assert!(!LitBool::parse("false")?.value());
    /// # Ok::<(), navyspindle::ParseError>(())
    /// ```
    #[inline]
    #[must_use]
    pub fn value(&self) -> bool {
        self.value
    }
}

/// A text without a value and without a suffix. It is a literal token of a list or a source such as `'\q'`, an integer above 128
/// bits, or any text that [`Lit::of_text`](crate::Lit::of_text) can't read.
///
/// A decimal integer above 128 bits with the suffix `f32` or `f64` is a float to Rust. So [`Lit::parse`](crate::Lit::parse) returns it as
/// a `LitVerbatim`, in place of an error. [`LitFloat::of_text`](crate::LitFloat::of_text) returns its value and its suffix.
///
/// With the feature `flaws`, `flaws`, `pieces` and `guess_kind` return more about the text.
///
/// ```
/// use navyspindle::{FlawKind, Lit};
///
/// let Lit::Verbatim(literal) = Lit::of_text(r"'\q'") else { panic!() };
/// assert_eq!(literal.explain().unwrap().kind(), FlawKind::UnknownEscape);
/// ```
#[derive(Clone)]
#[repr(C)]
pub struct LitVerbatim<'t> {
    text: Cow<'t, str>,
}

text_type!(LitVerbatim(), "word");

impl<'t> LitVerbatim<'t> {
    #[inline]
    pub(crate) fn of(text: Cow<'t, str>) -> Self {
        LitVerbatim { text }
    }

    /// Returns an empty suffix, since a verbatim text has none.
    #[inline]
    pub(crate) fn suffix(&self) -> &'static str {
        ""
    }

    /// Returns an empty suffix, since a verbatim text has none.
    #[inline]
    pub(crate) fn into_suffix(self) -> Cow<'static, str> {
        Cow::Borrowed("")
    }

    /// Returns the reason why the text isn't a Rust literal with a value, and its range. Returns `None` for an integer above 128
    /// bits that is a float by its suffix, which [`Lit::parse`](crate::Lit::parse) accepts.
    ///
    /// ```
    /// use navyspindle::{parse_list, FlawKind, Lit};
    ///
    /// let (range, literal) = parse_list(r"1 '\q'").nth(1).unwrap()?;
    /// let Lit::Verbatim(literal) = literal else { panic!() };
    /// let error = literal.explain().unwrap();
    /// assert_eq!(range.start, 2);
    /// assert_eq!(error.kind(), FlawKind::UnknownEscape);
    /// assert_eq!(error.range(), 2..3);
    /// # Ok::<(), navyspindle::ListError>(())
    /// ```
    #[inline]
    #[must_use]
    pub fn explain(&self) -> Option<ParseError> {
        ParseError::of(&self.text)
    }
}

#[cfg(feature = "flaws")]
impl LitVerbatim<'_> {
    /// Returns the kind of literal that the text begins as. See [`guess_kind`](crate::guess_kind).
    ///
    /// ```
    /// use navyspindle::{Kind, Lit};
    ///
    /// let Lit::Verbatim(literal) = Lit::of_text(r"b'\q'") else { panic!() };
    /// assert_eq!(literal.guess_kind(), Some(Kind::Byte));
    /// ```
    #[inline]
    #[must_use]
    pub fn guess_kind(&self) -> Option<Kind> {
        guess_kind(&self.text)
    }

    /// Iterates over all flaws of the text, in order. See [`flaws`](crate::flaws()).
    ///
    /// The first flaw is the reason that [`explain`](LitVerbatim::explain) returns, if it returns one. A text that doesn't begin as
    /// a quoted literal has no other flaw. For a literal of a file, call [`flaws_in_file`](crate::flaws_in_file) with its text.
    ///
    /// ```
    /// use navyspindle::{FlawKind, Lit};
    ///
    /// let Lit::Verbatim(literal) = Lit::of_text(r#""\q \u{d800}""#) else { panic!() };
    /// let kinds: Vec<_> = literal.flaws().map(|bad| bad.kind()).collect();
    /// assert_eq!(kinds, [FlawKind::UnknownEscape, FlawKind::Surrogate]);
    /// ```
    #[inline]
    pub fn flaws(&self) -> Flaws<'_> {
        Flaws::of_unread(&self.text)
    }

    /// Returns the pieces of the text between the quotes, with and without flaws, or `None` if the text doesn't begin as a quoted
    /// literal. See [`pieces`](crate::pieces).
    ///
    /// ```
    /// use navyspindle::{Lit, Piece};
    ///
    /// let Lit::Verbatim(literal) = Lit::of_text(r#""\q\n\y""#) else { panic!() };
    /// let bad = literal.pieces().unwrap().filter(|it| matches!(it, Piece::Bad(_)));
    /// assert_eq!(bad.count(), 2);
    /// ```
    #[inline]
    #[must_use]
    pub fn pieces(&self) -> Option<Pieces<'_>> {
        pieces(&self.text)
    }
}
