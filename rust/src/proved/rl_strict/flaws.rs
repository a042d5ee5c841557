// Rendered from crates/rl_strict/src/flaws.rt by tools/render, which erases contracts: change that file, and render again.
//! The kinds of flaws (errors in the text of a literal), and a flaw's byte range.

#[cfg(feature = "__rendered")]
use crate::rl_syntax::Span;
use crate::rl_syntax::text::split_char;
use core::fmt;

/// The reason why a text isn't a valid literal.
#[derive(Clone, Copy, PartialEq, Eq, Hash, Debug)]
#[non_exhaustive]
pub enum FlawKind {
    /// The text is empty, so it contains no token.
    Empty,
    /// The text before this character can begin a literal, but the character can't continue it.
    NotALiteral,
    /// The text ends inside a prefix, inside `true` or `false`, after a raw string's hashes, or after a minus.
    UnexpectedEnd,
    /// A raw string's hashes aren't followed by `"`.
    NoQuote,
    /// A minus isn't followed by a digit.
    NoNumber,
    /// The text of a quoted literal ends before its closing quote.
    Unclosed,
    /// The character after a backslash begins no known escape.
    UnknownEscape,
    /// A `\u` escape in a byte or a byte string. Only characters, strings and C strings allow it.
    NoUnicode,
    /// An escape lacks a hexadecimal digit.
    NoHexDigit,
    /// `\u` isn't followed by `{`.
    NoBrace,
    /// A `\u{}` escape without a digit between its braces.
    EmptyBraces,
    /// A `\u{..}` escape has a seventh digit between its braces.
    TooManyDigits,
    /// A `\x` escape above 7F in a character or a string.
    HexEscapeOutOfRange,
    /// A `\u{..}` escape above 10FFFF.
    UnicodeEscapeOutOfRange,
    /// A `\u{..}` escape of a surrogate (D800 to DFFF).
    Surrogate,
    /// A C string contains a NUL.
    Nul,
    /// A byte or a byte string contains a non-ASCII character.
    NotAscii,
    /// The character is allowed only as an escape, for example a tab between single quotes.
    MustEscape,
    /// A character or byte literal is empty: `''`.
    NoCharacter,
    /// A character or byte literal contains more than one character.
    TwoCharacters,
    /// The exponent of a float has no digit.
    NoExponentDigit,
    /// The character can't be part of a number or of a literal's suffix.
    BadSuffix,
    /// The integer is above 128 bits.
    TooLarge,
    /// A minus precedes the literal, but a literal token has no sign.
    Minus,
    /// A raw string begins with more than 255 hashes.
    TooManyHashes,
    /// A string contains a CR.
    CarriageReturn,
    /// Another closing quote follows the closing quote or the suffix, for example `"a"b"`.
    TextAfterQuote,
    /// A raw string has more hashes after its closing quote than before its opening quote.
    ExtraHash,
    /// The suffix of a quoted literal is `_` alone.
    UnderscoreSuffix,
    /// The prefix of a base, such as `0x`, isn't followed by a digit.
    NoDigits,
    /// A digit that the integer's base doesn't have, for example `2` in a binary integer.
    InvalidDigit,
    /// A float with a base prefix, such as `0x1.5`: floats are always decimal.
    BasedFloat,
    /// The dot of a float isn't followed by a digit.
    NoFractionDigit,
}

impl FlawKind {
    /// Returns the kind's identifier for programs, for example `unknown-escape`.
    ///
    /// The identifier never changes, but [`message`](FlawKind::message) may.
    #[inline]
    pub fn id(self) -> &'static str {
        match self {
            FlawKind::Empty => "empty",
            FlawKind::NotALiteral => "no-literal",
            FlawKind::UnexpectedEnd => "unfinished",
            FlawKind::NoQuote => "no-quote",
            FlawKind::NoNumber => "no-number",
            FlawKind::Unclosed => "unclosed-quote",
            FlawKind::UnknownEscape => "unknown-escape",
            FlawKind::NoUnicode => "unicode-escape-in-bytes",
            FlawKind::NoHexDigit => "no-hexadecimal-digit",
            FlawKind::NoBrace => "no-brace",
            FlawKind::EmptyBraces => "empty-braces",
            FlawKind::TooManyDigits => "too-many-digits",
            FlawKind::HexEscapeOutOfRange => "past-ascii",
            FlawKind::UnicodeEscapeOutOfRange => "past-unicode",
            FlawKind::Surrogate => "surrogate",
            FlawKind::Nul => "nul",
            FlawKind::NotAscii => "not-ascii",
            FlawKind::MustEscape => "must-escape",
            FlawKind::NoCharacter => "no-character",
            FlawKind::TwoCharacters => "two-characters",
            FlawKind::NoExponentDigit => "no-exponent-digit",
            FlawKind::BadSuffix => "bad-suffix",
            FlawKind::TooLarge => "integer-too-large",
            FlawKind::Minus => "minus",
            FlawKind::TooManyHashes => "too-many-hashes",
            FlawKind::CarriageReturn => "carriage-return",
            FlawKind::TextAfterQuote => "early-quote",
            FlawKind::ExtraHash => "extra-hash",
            FlawKind::UnderscoreSuffix => "underscore-suffix",
            FlawKind::NoDigits => "no-digits",
            FlawKind::InvalidDigit => "digit-of-base",
            FlawKind::BasedFloat => "based-float",
            FlawKind::NoFractionDigit => "no-fraction-digit",
        }
    }

    /// Returns the error message, for example `unknown escape`.
    pub fn message(self) -> &'static str {
        match self {
            FlawKind::Empty => "empty text",
            FlawKind::NotALiteral => "not a literal",
            FlawKind::UnexpectedEnd => "incomplete literal",
            FlawKind::NoQuote => "expected `\"`",
            FlawKind::NoNumber => "expected a digit after `-`",
            FlawKind::Unclosed => "unclosed quote",
            FlawKind::UnknownEscape => "unknown escape",
            FlawKind::NoUnicode => "`\\u` isn't allowed in bytes",
            FlawKind::NoHexDigit => "expected a hexadecimal digit",
            FlawKind::NoBrace => "expected `{`",
            FlawKind::EmptyBraces => "no digits between the braces",
            FlawKind::TooManyDigits => "more than six digits between the braces",
            FlawKind::HexEscapeOutOfRange => "`\\x` escape above 7F",
            FlawKind::UnicodeEscapeOutOfRange => "escape above 10FFFF",
            FlawKind::Surrogate => "a surrogate isn't a character",
            FlawKind::Nul => "NUL in a C string",
            FlawKind::NotAscii => "not an ASCII character",
            FlawKind::MustEscape => "must be written as an escape",
            FlawKind::NoCharacter => "no character between the quotes",
            FlawKind::TwoCharacters => "more than one character between the quotes",
            FlawKind::NoExponentDigit => "no digit in the exponent",
            FlawKind::BadSuffix => "not part of a number or its suffix",
            FlawKind::TooLarge => "integer above 128 bits",
            FlawKind::Minus => "a literal token has no sign",
            FlawKind::TooManyHashes => "more than 255 hashes",
            FlawKind::CarriageReturn => "CR in a string",
            FlawKind::TextAfterQuote => "text after the closing quote",
            FlawKind::ExtraHash => "more hashes than the literal began with",
            FlawKind::UnderscoreSuffix => "`_` isn't a suffix",
            FlawKind::NoDigits => "no digits after the base",
            FlawKind::InvalidDigit => "invalid digit for this base",
            FlawKind::BasedFloat => "a float must be decimal",
            FlawKind::NoFractionDigit => "expected a digit after the dot",
        }
    }
}

impl fmt::Display for FlawKind {
    fn fmt(&self, f: &mut fmt::Formatter<'_>) -> fmt::Result {
        f.pad(self.message())
    }
}

impl core::error::Error for FlawKind {}

impl fmt::Display for Flaw {
    fn fmt(&self, f: &mut fmt::Formatter<'_>) -> fmt::Result {
        f.pad(self.kind.message())
    }
}

impl core::error::Error for Flaw {}

#[derive(Clone, Copy)]
pub struct FlawAt<'t> {
    pub kind: FlawKind,
    pub piece: &'t str,
    pub rest: &'t str,
}

pub fn make_flaw(kind: FlawKind, rest: &str) -> FlawAt<'_> {
    FlawAt {
        kind,
        piece: rest,
        rest,
    }
}

impl<'t> FlawAt<'t> {
    pub fn with_piece(self, piece: &'t str) -> FlawAt<'t> {
        FlawAt {
            kind: self.kind,
            piece,
            rest: self.rest,
        }
    }
}

#[derive(Clone, Copy, PartialEq, Eq, Debug)]
pub struct Flaw {
    pub kind: FlawKind,
    pub from: usize,
    pub lo: usize,
    pub hi: usize,
}

impl Flaw {
    #[cfg(feature = "__rendered")]
    pub fn in_span(self, span: Span) -> Span {
        Span::new(span.file, place_in(span, self.lo), place_in(span, self.hi))
    }
}

#[cfg(feature = "__rendered")]
fn place_in(span: Span, at: usize) -> usize {
    match span.lo.checked_add(at) {
        Some(place) if place < span.hi => place,
        _ => span.hi,
    }
}

pub fn flaw_at_end_or_before(at_end: FlawKind, before: FlawKind, text: &str) -> FlawAt<'_> {
    match split_char(text) {
        None => make_flaw(at_end, text),
        Some(_) => make_flaw(before, text),
    }
}

fn skip_letters<'t>(word: &str, text: &'t str) -> &'t str {
    let mut left = word;
    let mut rest = text;
    while let Some((letter, more)) = split_char(left) {
        match split_char(rest) {
            Some((next, after)) if next == letter => {
                left = more;
                rest = after;
            }
            _ => return rest,
        }
    }
    rest
}

pub fn non_literal_flaw(text: &str) -> FlawAt<'_> {
    match split_char(text) {
        None => make_flaw(FlawKind::Empty, text),
        Some(('b' | 'c', rest)) => flaw_at_end_or_before(
            FlawKind::UnexpectedEnd,
            FlawKind::NotALiteral,
            rest,
        ),
        Some(('t', _)) => flaw_at_end_or_before(
            FlawKind::UnexpectedEnd,
            FlawKind::NotALiteral,
            skip_letters("true", text),
        ),
        Some(('f', _)) => flaw_at_end_or_before(
            FlawKind::UnexpectedEnd,
            FlawKind::NotALiteral,
            skip_letters("false", text),
        ),
        Some(_) => make_flaw(FlawKind::NotALiteral, text),
    }
}
