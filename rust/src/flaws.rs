//! All errors (flaws) of a text that should be a literal, the kind of literal that it begins as, and its pieces with and without
//! errors.

use crate::kind::Kind;
use crate::parse_error::{FlawKind, ParseError};
use crate::rl_flaws;
use crate::rl_strict::{explain_missing_value, read, LineEnds};
use crate::segments::Segment;
use core::fmt;
use core::iter::FusedIterator;
use core::ops::Range;

/// A flaw of a text, with the whole piece of the text that has the flaw.
///
/// ```
/// use navyspindle::{flaws, FlawKind};
///
/// let text = r#""a\u{D800}b""#;
/// let bad = flaws(text).next().unwrap();
/// assert_eq!((bad.kind(), &text[bad.range()]), (FlawKind::Surrogate, r"\u{D800}"));
/// assert_eq!(bad.to_string(), "a surrogate isn't a character at byte 9");
/// ```
#[derive(Clone, Copy, Debug, PartialEq, Eq, Hash)]
pub struct InvalidPiece {
    kind: FlawKind,
    error: ParseError,
    from: usize,
    end: usize,
}

impl InvalidPiece {
    #[inline]
    fn of(bad: rl_flaws::InvalidPiece) -> InvalidPiece {
        InvalidPiece {
            kind: bad.flaw.kind,
            error: ParseError::of_flaw(bad.flaw),
            from: bad.flaw.from,
            end: bad.end,
        }
    }

    /// Returns the kind of the flaw.
    ///
    /// ```
    /// use navyspindle::{flaws, FlawKind};
    ///
    /// assert_eq!(flaws("'ab'").next().unwrap().kind(), FlawKind::TwoCharacters);
    /// ```
    #[inline]
    #[must_use]
    pub fn kind(&self) -> FlawKind {
        self.kind
    }

    /// Returns the byte range of the whole piece. For a bad escape it is the whole escape, up to where rustc ends it. For any other
    /// flaw it is the range that [`ParseError::piece`] returns. But for a missing closing quote, it may be empty at the text's end.
    ///
    /// ```
    /// use navyspindle::flaws;
    ///
    /// let text = r#""\xff \u{12z}""#;
    /// let pieces: Vec<_> = flaws(text).map(|bad| &text[bad.range()]).collect();
    /// assert_eq!(pieces, [r"\xff", r"\u{12z"]);
    /// ```
    #[inline]
    #[must_use]
    pub fn range(&self) -> Range<usize> {
        self.from..self.end
    }

    /// Returns the byte offset at which [`range`](InvalidPiece::range) begins.
    ///
    /// ```
    /// assert_eq!(navyspindle::flaws(r#""a\q""#).next().unwrap().offset(), 2);
    /// ```
    #[inline]
    #[must_use]
    pub fn offset(&self) -> usize {
        self.from
    }

    /// Returns the flaw as an error. The error's range is the first character that can't continue a literal.
    ///
    /// ```
    /// use navyspindle::{flaws, Lit};
    ///
    /// let text = r#""\q""#;
    /// assert_eq!(flaws(text).next().unwrap().error(), Lit::parse(text).unwrap_err());
    /// ```
    #[inline]
    #[must_use]
    pub fn error(&self) -> ParseError {
        self.error
    }
}

impl fmt::Display for InvalidPiece {
    fn fmt(&self, f: &mut fmt::Formatter<'_>) -> fmt::Result {
        self.error.fmt(f)
    }
}

impl core::error::Error for InvalidPiece {}

/// An iterator over all flaws of a text, in order. See [`flaws`].
///
/// ```
/// use navyspindle::{flaws, Flaws};
///
/// let all: Flaws = flaws(r#""\q\w""#);
/// assert_eq!(all.map(|bad| bad.offset()).collect::<Vec<_>>(), [1, 3]);
/// ```
#[must_use = "an iterator does nothing until it is asked"]
#[derive(Clone)]
pub struct Flaws<'t> {
    first: Option<rl_flaws::InvalidPiece>,
    // The cursor over the further flaws, or `None` if there are none.
    further: Option<rl_flaws::Flaws<'t>>,
}

impl<'t> Flaws<'t> {
    fn of(text: &'t str, ends: LineEnds) -> Flaws<'t> {
        let all = read(text, ends, false).err();
        let (first, further) = all
            .map(|flaw| rl_flaws::Flaws::after(text, ends, flaw))
            .unzip();
        Flaws { first, further }
    }

    /// Returns the flaws of a text that has no value as a literal. If the text doesn't begin as a quoted literal, the only flaw is
    /// the reason why Rust rejects it.
    pub(crate) fn of_unread(text: &'t str) -> Flaws<'t> {
        let flaw = explain_missing_value(text, LineEnds::Text, true);
        let all = flaws(text);
        if flaw == all.first.map(|bad| bad.flaw) {
            return all;
        }
        let first = flaw.map(|flaw| rl_flaws::InvalidPiece { flaw, end: flaw.hi });
        Flaws {
            first,
            further: None,
        }
    }
}

impl Iterator for Flaws<'_> {
    type Item = InvalidPiece;

    #[inline]
    fn next(&mut self) -> Option<InvalidPiece> {
        let bad = match self.first.take() {
            None => self.further.as_mut()?.next()?,
            Some(bad) => bad,
        };
        Some(InvalidPiece::of(bad))
    }
}

impl FusedIterator for Flaws<'_> {}

impl fmt::Debug for Flaws<'_> {
    fn fmt(&self, f: &mut fmt::Formatter<'_>) -> fmt::Result {
        f.debug_struct("Flaws").finish_non_exhaustive()
    }
}

/// Iterates over all flaws of a text that should be a Rust literal token, in order. A literal token has no flaws. Nothing is
/// allocated.
///
/// The first flaw is the reason why [`Lit::parse`](crate::Lit::parse) rejects the text, with two differences: a literal token has
/// no minus, and an integer of any size is a literal token.
///
/// - After a bad character or escape of a string, the rest of the string is checked too.
/// - After a flaw before the closing quote of a character or a byte literal, the suffix is checked too: `'\q'_` has two flaws.
/// - Any other flaw is the last one.
///
/// rustc reports the same flaws, with one difference: a backslash after a broken `\x` or `\u` begins the next escape here.
///
/// The text is checked as it is, so a CR LF in a string is a flaw. For a literal of a file, call [`flaws_in_file`].
///
/// ```
/// use navyspindle::{flaws, FlawKind};
///
/// let kinds: Vec<_> = flaws(r#""é\u{d800}..\x41z\q"#).map(|bad| bad.kind()).collect();
/// assert_eq!(kinds, [FlawKind::Surrogate, FlawKind::UnknownEscape, FlawKind::Unclosed]);
/// assert_eq!(flaws("1_000_u32").next(), None);
/// ```
#[inline]
pub fn flaws(text: &str) -> Flaws<'_> {
    Flaws::of(text, LineEnds::Text)
}

/// Iterates over all flaws of a literal in a file, in order, like [`flaws`]. A CR LF is read as LF, as rustc and
/// [`Lit::check`](crate::Lit::check) read it. So a CR LF in a string isn't a flaw, and neither is a backslash before a CR LF.
///
/// Call it with the text of a literal that [`source`](fn@crate::source) or [`parse_list`](fn@crate::parse_list) returned. Ranges
/// count the bytes of both characters.
///
/// ```
/// use navyspindle::{flaws, flaws_in_file, FlawKind};
///
/// let text = "\"a\r\n\\q\"";
/// let bad: Vec<_> = flaws_in_file(text).map(|bad| (bad.kind(), bad.range())).collect();
/// assert_eq!(bad, [(FlawKind::UnknownEscape, 4..6)]);
/// assert_eq!(flaws(text).next().unwrap().kind(), FlawKind::CarriageReturn);
/// ```
#[inline]
pub fn flaws_in_file(text: &str) -> Flaws<'_> {
    Flaws::of(text, LineEnds::File)
}

/// Returns the kind of literal that a text begins as, or `None` if a literal can't begin like the text. The text itself may be
/// invalid. For a literal token it is the kind of that token.
///
/// A quoted literal begins with its prefix and its quote. A number begins with a digit, perhaps after a minus. Of identifiers, only
/// `true` and `false` are literals.
///
/// ```
/// use navyspindle::{guess_kind, Kind};
///
/// assert_eq!(guess_kind(r#""a\q"#), Some(Kind::Str));
/// assert_eq!(guess_kind("1.5.2"), Some(Kind::Float));
/// assert_eq!(guess_kind("word"), None);
/// ```
#[inline]
#[must_use]
pub fn guess_kind(text: &str) -> Option<Kind> {
    rl_flaws::guess_kind(text).map(Kind::of)
}

/// A piece of a quoted literal that may have flaws.
///
/// ```
/// use navyspindle::{pieces, Piece};
///
/// let mut all = pieces(r"'\q'").unwrap();
/// assert!(matches!(all.next(), Some(Piece::Bad(bad)) if bad.range() == (1..3)));
/// ```
#[derive(Clone, Debug, PartialEq, Eq, Hash)]
#[non_exhaustive]
pub enum Piece<'t> {
    /// A segment without a flaw: its range and its value.
    Good(Segment<'t>),
    /// A flaw, with the piece of the text that has it.
    Bad(InvalidPiece),
}

impl Piece<'_> {
    /// Returns the byte range of the piece in the text.
    ///
    /// ```
    /// let ranges: Vec<_> = navyspindle::pieces(r#""a\q""#).unwrap().map(|piece| piece.range()).collect();
    /// assert_eq!(ranges, [1..2, 2..4]);
    /// ```
    #[inline]
    #[must_use]
    pub fn range(&self) -> Range<usize> {
        match self {
            Piece::Good(segment) => segment.range.clone(),
            Piece::Bad(bad) => bad.range(),
        }
    }
}

/// An iterator over the pieces of a quoted literal, in order. See [`pieces`].
///
/// ```
/// use navyspindle::{pieces, Piece, Pieces};
///
/// let all: Pieces = pieces(r#""a\q""#).unwrap();
/// let are_good: Vec<bool> = all.map(|piece| matches!(piece, Piece::Good(_))).collect();
/// assert_eq!(are_good, [true, false]);
/// ```
#[must_use = "an iterator does nothing until it is asked"]
#[derive(Clone)]
pub struct Pieces<'t> {
    cursor: rl_flaws::Pieces<'t>,
    // The number of bytes of the value that the returned segments without a flaw give.
    value_offset: usize,
}

impl<'t> Pieces<'t> {
    #[inline]
    fn of(text: &'t str, ends: LineEnds) -> Option<Pieces<'t>> {
        let cursor = rl_flaws::Pieces::of(text, ends)?;
        let value_offset = 0;
        Some(Pieces {
            cursor,
            value_offset,
        })
    }
}

impl<'t> Iterator for Pieces<'t> {
    type Item = Piece<'t>;

    #[inline]
    fn next(&mut self) -> Option<Piece<'t>> {
        match self.cursor.next()? {
            rl_flaws::Piece::Good(segment) => {
                let segment = Segment::of(segment, self.value_offset);
                self.value_offset = segment.value_range.end;
                Some(Piece::Good(segment))
            }
            rl_flaws::Piece::Bad(bad) => Some(Piece::Bad(InvalidPiece::of(bad))),
        }
    }
}

impl FusedIterator for Pieces<'_> {}

impl fmt::Debug for Pieces<'_> {
    fn fmt(&self, f: &mut fmt::Formatter<'_>) -> fmt::Result {
        f.debug_struct("Pieces").finish_non_exhaustive()
    }
}

/// Returns the pieces of the text between the quotes, with and without flaws, or `None` if the text doesn't begin as a quoted
/// literal. Nothing is allocated.
///
/// A piece without a flaw is a segment, as [`Lit::segments`](crate::Lit::segments) returns it. Its range in the value counts only
/// the pieces without a flaw before it. The pieces with a flaw are all [`flaws`] of the text. The last of them may be after the
/// closing quote.
///
/// The text is read as it is, so a CR LF in a string is a flaw. For a literal of a file, call [`pieces_in_file`].
///
/// ```
/// use navyspindle::{pieces, FlawKind, Piece, SegmentValue};
///
/// let text = r#""a\q\u{e9}""#;
/// let all: Vec<_> = pieces(text).unwrap().collect();
/// assert!(matches!(&all[0], Piece::Good(it) if it.value == SegmentValue::Text("a")));
/// assert!(matches!(&all[1], Piece::Bad(it) if it.kind() == FlawKind::UnknownEscape));
/// assert!(matches!(&all[2], Piece::Good(it) if it.value == SegmentValue::Char('é')));
/// ```
#[inline]
#[must_use]
pub fn pieces(text: &str) -> Option<Pieces<'_>> {
    Pieces::of(text, LineEnds::Text)
}

/// Returns the pieces of a literal in a file, like [`pieces`]. The pieces with a flaw are those of [`flaws_in_file`]. A CR LF between
/// the quotes is a segment with the value LF. In a raw string, it is part of the text, as in [`Lit::segments`](crate::Lit::segments).
///
/// ```
/// use navyspindle::{pieces_in_file, Piece, SegmentValue};
///
/// let all: Vec<_> = pieces_in_file("\"\r\n\\q\"").unwrap().collect();
/// assert!(matches!(&all[0], Piece::Good(it) if it.value == SegmentValue::Char('\n')));
/// assert!(matches!(&all[1], Piece::Bad(it) if it.range() == (3..5)));
/// ```
#[inline]
#[must_use]
pub fn pieces_in_file(text: &str) -> Option<Pieces<'_>> {
    Pieces::of(text, LineEnds::File)
}
