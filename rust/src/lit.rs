//! Literals of any kind.

use crate::kind::Kind;
use crate::parse_error::ParseError;
use crate::rl_lenient::{is_plain_integer, parse_literal, Body, Found};
#[cfg(any(feature = "sources", feature = "settings"))]
use crate::rl_strict::explain_missing_value;
use crate::rl_strict::strict_reading::{
    classify_start, read, read_character, read_non_digit_start, read_string, read_unsigned_number,
    Front, Reading,
};
use crate::rl_strict::{flaw_above_128_bits, is_float_by_suffix, LineEnds};
use crate::rl_syntax;
use crate::segments::{OffsetMap, Segments};
use crate::{
    LitBool, LitByte, LitByteStr, LitCStr, LitChar, LitFloat, LitInt, LitStr, LitVerbatim,
};
use alloc::borrow::Cow;
use alloc::string::String;
use core::fmt;
use core::ops::Range;
use core::str::FromStr;

/// A literal of any kind. Literals of one kind are equal if their texts are.
///
/// [`Lit::parse`] accepts Rust's literals, with an optional minus before a number. [`Lit::of_text`] accepts any text, and reads it
/// as `syn` reads a token. Some texts that Rust rejects are literals to `syn`.
///
/// Some methods need a feature: [`check`](Lit::check) `sources` or `settings`; [`parse_prefix`](Lit::parse_prefix),
/// [`parse_prefix_signed`](Lit::parse_prefix_signed) and [`parse_next`](Lit::parse_next) `sources`; [`type_error`](Lit::type_error) and
/// [`type_error_negated`](Lit::type_error_negated) `flaws`; `to_token_stream`, and `TryFrom` of tokens, `proc-macro`. Constructors
/// that write a value as a literal, such as [`LitStr::new`] and [`LitInt::suffixed`], need `writers`.
///
/// ```
/// use navyspindle::{Kind, Lit};
///
/// let literal = Lit::parse("1_000_u32")?;
/// assert_eq!((literal.kind(), literal.suffix()), (Kind::Int, "u32"));
/// let owned: Lit<'static> = "'x'".parse()?;
/// assert_eq!(owned.text(), "'x'");
/// # Ok::<(), navyspindle::ParseError>(())
/// ```
#[doc(alias = "Literal")]
#[derive(Clone, PartialEq, Eq, Hash)]
#[non_exhaustive]
pub enum Lit<'t> {
    /// A string literal, such as `"a"`.
    Str(LitStr<'t>),
    /// A byte string literal, such as `b"a"`.
    ByteStr(LitByteStr<'t>),
    /// A C string literal, such as `c"a"`.
    CStr(LitCStr<'t>),
    /// A byte literal, such as `b'a'`.
    Byte(LitByte<'t>),
    /// A character literal, such as `'a'`.
    Char(LitChar<'t>),
    /// An integer literal, such as `1`.
    Int(LitInt<'t>),
    /// A float literal, such as `1.5`.
    Float(LitFloat<'t>),
    /// A `bool` literal: `true` or `false`.
    Bool(LitBool<'t>),
    /// A text without a value. [`Lit::parse`] returns it for only one kind of text: see [`LitVerbatim`].
    Verbatim(LitVerbatim<'t>),
}

/// Evaluates one expression with the literal of any variant.
macro_rules! each_kind {
    ($lit:expr, $literal:ident => $result:expr) => {
        match $lit {
            Lit::Str($literal) => $result,
            Lit::ByteStr($literal) => $result,
            Lit::CStr($literal) => $result,
            Lit::Byte($literal) => $result,
            Lit::Char($literal) => $result,
            Lit::Int($literal) => $result,
            Lit::Float($literal) => $result,
            Lit::Bool($literal) => $result,
            Lit::Verbatim($literal) => $result,
        }
    };
}

/// Evaluates one expression with the literal of a quoted variant. The result is `None` for any other variant.
macro_rules! each_quoted {
    ($lit:expr, $literal:ident => $result:expr) => {
        match $lit {
            Lit::Str($literal) => Some($result),
            Lit::ByteStr($literal) => Some($result),
            Lit::CStr($literal) => Some($result),
            Lit::Byte($literal) => Some($result),
            Lit::Char($literal) => Some($result),
            _ => None,
        }
    };
}

impl<'t> Lit<'t> {
    /// Reads the text as `syn` reads a token. It never fails: a text without a meaning to `syn`, and an integer above 128 bits,
    /// become [`Lit::Verbatim`].
    ///
    /// `syn` expects tokens that were lexed before, so it accepts some texts that Rust rejects: `0b102` is a float, `1e` an integer
    /// with the suffix `e`, and `'''` a character. For a text that wasn't lexed, call [`Lit::parse`]. To write the value `a` as a
    /// literal, call [`LitStr::new`].
    ///
    /// ```
    /// use navyspindle::{Kind, Lit};
    ///
    /// assert_eq!(Lit::of_text("'a'").kind(), Kind::Char);
    /// assert_eq!(Lit::of_text("0b102").kind(), Kind::Float);
    /// assert_eq!(Lit::of_text("word").kind(), Kind::Verbatim);
    /// ```
    #[inline]
    #[must_use]
    pub fn of_text(text: impl Into<Cow<'t, str>>) -> Lit<'t> {
        let text = text.into();
        let found = parse_literal(&text);
        Lit::of_token(text, found)
    }

    /// Parses a Rust literal, with an optional minus before a number.
    ///
    /// The whole text must be the literal, without white space around it. Any suffix is accepted, as in `1u9` and `"a"q`, because a
    /// macro may receive such a token. [`suffix`](Lit::suffix) returns the suffix, and `type_error` (feature `flaws`) returns
    /// whether Rust has a type for the literal. A string that contains CR LF is an error here. [`Lit::check`] accepts the string,
    /// since rustc reads CR LF in a file as LF.
    ///
    /// # Errors
    ///
    /// Returns an error if the text isn't a literal, or is an integer above 128 bits. [`LitVerbatim`] has one exception. The error has
    /// the reason and its range.
    ///
    /// ```
    /// use navyspindle::{FlawKind, Kind, Lit};
    ///
    /// let literal = Lit::parse("-1_000i64")?;
    /// assert_eq!((literal.kind(), literal.suffix()), (Kind::Int, "i64"));
    ///
    /// let text = r#""C:\dir""#;
    /// let error = Lit::parse(text).unwrap_err();
    /// assert_eq!(error.kind(), FlawKind::UnknownEscape);
    /// assert_eq!(&text[error.piece()], r"\d");
    /// assert_eq!(error.to_string(), "unknown escape at byte 4");
    /// # Ok::<(), navyspindle::ParseError>(())
    /// ```
    #[doc(alias = "parse_str")]
    #[inline]
    pub fn parse(text: &'t str) -> Result<Lit<'t>, ParseError> {
        let borrowed = Cow::Borrowed(text);
        // Each branch calls a function that returns only the parts of its kind of literal, in registers. A function that reads
        // every kind would return its result in memory.
        match classify_start(text) {
            Front::Quote(inside) => match read_string(text, inside) {
                Ok(body) => Ok(Lit::Str(LitStr::of(borrowed, body))),
                Err(flaw) => Err(ParseError::of_flaw(flaw)),
            },
            Front::Bare(c) => Ok(Lit::Char(LitChar::of(borrowed, text.len(), u32::from(c)))),
            Front::Apostrophe(inside) => match read_character(text, inside) {
                Ok(single) => {
                    let suffix_at = single.body.suffix_at;
                    Ok(Lit::Char(LitChar::of(borrowed, suffix_at, single.unit)))
                }
                Err(flaw) => Err(ParseError::of_flaw(flaw)),
            },
            Front::Digit => match read_unsigned_number(text) {
                Ok(reading) => Lit::read(borrowed, reading),
                Err(flaw) => Err(ParseError::of_flaw(flaw)),
            },
            Front::Other => match read_non_digit_start(text) {
                Ok(reading) => Lit::read(borrowed, reading),
                Err(flaw) => Err(ParseError::of_flaw(flaw)),
            },
        }
    }

    /// Parses a text like [`Lit::parse`], by one call for all kinds of literals. The conversions from `String` and by `FromStr`
    /// share this function.
    #[inline]
    fn parse_apart(text: Cow<'t, str>) -> Result<Lit<'t>, ParseError> {
        let reading = read(&text, LineEnds::Text, true).map_err(ParseError::of_flaw)?;
        Lit::read(text, reading)
    }

    /// Checks that Rust accepts the literal in a source file.
    ///
    /// [`source`](fn@crate::source), `parse_list` and `parse_settings` read literals as `syn` does, and `syn` accepts some texts
    /// that Rust rejects. `check` applies the rules of [`Lit::parse`] to the literal's text, with one difference: CR LF counts as
    /// LF, as in a file.
    ///
    /// A suffix without a meaning (`1u9`, `0XFF`, `"a"q`) isn't an error, since a macro may receive the literal. To check a
    /// literal's type call `type_error` (feature `flaws`). The method `check` needs the feature `sources` or `settings`.
    ///
    /// # Errors
    ///
    /// Returns an error if Rust rejects the text. The error has the reason and its range in the text.
    ///
    /// ```
    /// use navyspindle::{source, FlawKind, ListError};
    ///
    /// let text = "let a = 0b12;";
    /// for item in source(text) {
    ///     let (range, literal) = item?;
    ///     let error = literal.check().unwrap_err();
    ///     assert_eq!(error.kind(), FlawKind::InvalidDigit);
    ///     assert_eq!(&text[error.shifted(range.start).range()], "2");
    /// }
    /// # Ok::<(), ListError>(())
    /// ```
    #[cfg(any(feature = "sources", feature = "settings"))]
    #[inline]
    pub fn check(&self) -> Result<(), ParseError> {
        match explain_missing_value(self.text(), LineEnds::File, true) {
            None => Ok(()),
            Some(flaw) => Err(ParseError::of_flaw(flaw)),
        }
    }

    /// Returns the segments between the quotes, or `None` for a literal without quotes. See
    /// [`LitStr::segments`](crate::LitStr::segments).
    ///
    /// ```
    /// use navyspindle::Lit;
    ///
    /// assert_eq!(Lit::parse(r"'\n'")?.segments().unwrap().next().unwrap().range, 1..3);
    /// assert!(Lit::parse("1")?.segments().is_none());
    /// # Ok::<(), navyspindle::ParseError>(())
    /// ```
    #[inline]
    #[must_use]
    pub fn segments(&self) -> Option<Segments<'_>> {
        each_quoted!(self, literal => literal.segments())
    }

    /// Returns a map from each byte of the value to its range in the literal's text, or `None` for a literal without quotes. See
    /// [`LitStr::offset_map`](crate::LitStr::offset_map).
    ///
    /// ```
    /// use navyspindle::Lit;
    ///
    /// assert_eq!(Lit::parse(r"'\n'")?.offset_map().unwrap().byte_range(0), 1..3);
    /// # Ok::<(), navyspindle::ParseError>(())
    /// ```
    #[inline]
    #[must_use]
    pub fn offset_map(&self) -> Option<OffsetMap> {
        each_quoted!(self, literal => literal.offset_map())
    }

    /// Creates the literal of a text from Rust's parse result for it.
    ///
    /// # Errors
    ///
    /// Returns an error if the literal is an integer above 128 bits that isn't a float by its suffix.
    #[inline(always)]
    fn read(text: Cow<'t, str>, reading: Reading) -> Result<Lit<'t>, ParseError> {
        Ok(match reading {
            Reading::Text(kind, body) => Lit::of_string(kind, text, body),
            Reading::Unit(kind, body, unit) => Lit::of_unit(kind, text, body.suffix_at, unit),
            Reading::Integer(Some(magnitude), suffix_at) => {
                let is_plain = is_plain_integer(&text[..suffix_at]);
                Lit::Int(LitInt::of(text, suffix_at, magnitude, is_plain))
            }
            Reading::Integer(None, suffix_at) => {
                if is_float_by_suffix(&text) {
                    return Ok(Lit::Verbatim(LitVerbatim::of(text)));
                }
                return Err(ParseError::of_flaw(flaw_above_128_bits(&text, suffix_at)));
            }
            Reading::Float(suffix_at) => Lit::Float(LitFloat::of(text, suffix_at)),
            Reading::Truth(truth) => Lit::Bool(LitBool::of(text, truth)),
        })
    }

    #[inline]
    fn of_string(kind: rl_syntax::Kind, text: Cow<'t, str>, body: Body) -> Lit<'t> {
        match kind {
            rl_syntax::Kind::ByteStr => Lit::ByteStr(LitByteStr::of(text, body)),
            rl_syntax::Kind::CStr => Lit::CStr(LitCStr::of(text, body)),
            _ => Lit::Str(LitStr::of(text, body)),
        }
    }

    #[inline]
    fn of_unit(kind: rl_syntax::Kind, text: Cow<'t, str>, suffix_at: usize, unit: u32) -> Lit<'t> {
        match kind {
            rl_syntax::Kind::Byte => Lit::Byte(LitByte::of(text, suffix_at, unit)),
            _ => Lit::Char(LitChar::of(text, suffix_at, unit)),
        }
    }

    /// Creates the literal of a text from `syn`'s parse result for it.
    #[inline]
    fn of(text: Cow<'t, str>, found: &Found) -> Lit<'t> {
        let body = found.body;
        let suffix_at = body.suffix_at;
        match found.kind {
            kind @ (rl_syntax::Kind::Str | rl_syntax::Kind::ByteStr | rl_syntax::Kind::CStr) => {
                Lit::of_string(kind, text, body)
            }
            kind @ (rl_syntax::Kind::Byte | rl_syntax::Kind::Char) => {
                Lit::of_unit(kind, text, suffix_at, found.unit)
            }
            rl_syntax::Kind::Int => {
                Lit::Int(LitInt::of(text, suffix_at, found.magnitude, body.plain))
            }
            rl_syntax::Kind::Float => Lit::Float(LitFloat::of(text, suffix_at)),
            rl_syntax::Kind::Bool => Lit::Bool(LitBool::of(text, found.truth)),
        }
    }

    /// Creates the literal of a token from the parse result of its text. Without a parse result it is `Lit::Verbatim`.
    #[inline]
    pub(crate) fn of_token(text: Cow<'t, str>, found: Option<Found>) -> Lit<'t> {
        match found {
            Some(found) => Lit::of(text, &found),
            None => Lit::Verbatim(LitVerbatim::of(text)),
        }
    }

    /// Returns the kind of the literal.
    ///
    /// ```
    /// use navyspindle::{Kind, Lit};
    ///
    /// assert_eq!(Lit::parse("true")?.kind(), Kind::Bool);
    /// # Ok::<(), navyspindle::ParseError>(())
    /// ```
    #[inline]
    #[must_use]
    pub fn kind(&self) -> Kind {
        match self {
            Lit::Str(_) => Kind::Str,
            Lit::ByteStr(_) => Kind::ByteStr,
            Lit::CStr(_) => Kind::CStr,
            Lit::Byte(_) => Kind::Byte,
            Lit::Char(_) => Kind::Char,
            Lit::Int(_) => Kind::Int,
            Lit::Float(_) => Kind::Float,
            Lit::Bool(_) => Kind::Bool,
            Lit::Verbatim(_) => Kind::Verbatim,
        }
    }

    /// Returns the literal's text as it was read.
    ///
    /// ```
    /// use navyspindle::Lit;
    ///
    /// assert_eq!(Lit::parse("0x1F")?.text(), "0x1F");
    /// # Ok::<(), navyspindle::ParseError>(())
    /// ```
    #[doc(alias = "raw_input")]
    #[doc(alias = "input")]
    #[doc(alias = "token")]
    #[inline]
    #[must_use]
    pub fn text(&self) -> &str {
        each_kind!(self, literal => literal.text())
    }

    /// Returns the literal's text as it was read. Borrowed text stays borrowed.
    ///
    /// ```
    /// use navyspindle::Lit;
    ///
    /// assert_eq!(Lit::parse("0x1F")?.into_text(), "0x1F");
    /// # Ok::<(), navyspindle::ParseError>(())
    /// ```
    #[inline]
    #[must_use]
    pub fn into_text(self) -> Cow<'t, str> {
        each_kind!(self, literal => literal.into_text())
    }

    /// Returns the literal's suffix, which may be empty. The suffix of `Verbatim` is always empty. The suffix of an integer above 128
    /// bits begins where the range of the error of [`Lit::parse`] begins.
    ///
    /// ```
    /// use navyspindle::Lit;
    ///
    /// assert_eq!(Lit::parse("'a'_s")?.suffix(), "_s");
    /// # Ok::<(), navyspindle::ParseError>(())
    /// ```
    #[inline]
    #[must_use]
    pub fn suffix(&self) -> &str {
        each_kind!(self, literal => literal.suffix())
    }

    /// Returns the byte range of the suffix in the literal's text. Without a suffix it is the empty range at the text's end.
    /// Returns `None` for `Verbatim`.
    ///
    /// ```
    /// use navyspindle::Lit;
    ///
    /// assert_eq!(Lit::parse("'a'_s")?.suffix_range(), Some(3..5));
    /// assert_eq!(Lit::parse("true")?.suffix_range(), Some(4..4));
    /// # Ok::<(), navyspindle::ParseError>(())
    /// ```
    #[inline]
    #[must_use]
    pub fn suffix_range(&self) -> Option<Range<usize>> {
        match self {
            Lit::Int(literal) => Some(literal.suffix_range()),
            Lit::Float(literal) => Some(literal.suffix_range()),
            Lit::Bool(literal) => Some(literal.suffix_range()),
            _ => each_quoted!(self, literal => literal.suffix_range()),
        }
    }

    /// Returns the byte range of the text between the quotes, or `None` for a literal without quotes.
    ///
    /// ```
    /// use navyspindle::Lit;
    ///
    /// assert_eq!(Lit::parse("b'a'")?.body_range(), Some(2..3));
    /// assert_eq!(Lit::parse("1")?.body_range(), None);
    /// # Ok::<(), navyspindle::ParseError>(())
    /// ```
    #[inline]
    #[must_use]
    pub fn body_range(&self) -> Option<Range<usize>> {
        each_quoted!(self, literal => literal.body_range())
    }

    /// Returns the text between the quotes, or `None` for a literal without quotes.
    ///
    /// ```
    /// use navyspindle::Lit;
    ///
    /// assert_eq!(Lit::parse(r#"c"a\n""#)?.body(), Some(r"a\n"));
    /// # Ok::<(), navyspindle::ParseError>(())
    /// ```
    #[inline]
    #[must_use]
    pub fn body(&self) -> Option<&str> {
        self.body_range().map(|range| &self.text()[range])
    }

    /// Returns the number of `#` before the first quote of a raw string, or `None` for any other literal.
    ///
    /// ```
    /// use navyspindle::Lit;
    ///
    /// assert_eq!(Lit::parse(r##"br#"a"#"##)?.hashes(), Some(1));
    /// assert_eq!(Lit::parse(r#"r"a""#)?.hashes(), Some(0));
    /// assert_eq!(Lit::parse(r#""a""#)?.hashes(), None);
    /// # Ok::<(), navyspindle::ParseError>(())
    /// ```
    #[inline]
    #[must_use]
    pub fn hashes(&self) -> Option<usize> {
        match self {
            Lit::Str(literal) => literal.is_raw().then(|| literal.hashes()),
            Lit::ByteStr(literal) => literal.is_raw().then(|| literal.hashes()),
            Lit::CStr(literal) => literal.is_raw().then(|| literal.hashes()),
            _ => None,
        }
    }

    /// Returns `true` if the literal is a raw string, a raw byte string or a raw C string.
    ///
    /// ```
    /// use navyspindle::Lit;
    ///
    /// assert!(Lit::parse(r#"r"a""#)?.is_raw());
    /// assert!(!Lit::parse("'a'")?.is_raw());
    /// # Ok::<(), navyspindle::ParseError>(())
    /// ```
    #[doc(alias = "is_raw_string")]
    #[inline]
    #[must_use]
    pub fn is_raw(&self) -> bool {
        self.hashes().is_some()
    }

    /// Returns the literal's suffix. If the literal's text is borrowed, so is the suffix.
    ///
    /// ```
    /// use navyspindle::Lit;
    ///
    /// assert_eq!(Lit::parse("'a'_s")?.into_suffix(), "_s");
    /// # Ok::<(), navyspindle::ParseError>(())
    /// ```
    #[inline]
    #[must_use]
    pub fn into_suffix(self) -> Cow<'t, str> {
        each_kind!(self, literal => literal.into_suffix())
    }

    /// Returns the literal with its own copy of the text.
    ///
    /// ```
    /// use navyspindle::Lit;
    ///
    /// let owned: Lit<'static> = Lit::parse("'a'")?.into_owned();
    /// assert_eq!(owned.text(), "'a'");
    /// # Ok::<(), navyspindle::ParseError>(())
    /// ```
    #[inline]
    #[must_use]
    pub fn into_owned(self) -> Lit<'static> {
        match self {
            Lit::Str(literal) => Lit::Str(literal.into_owned()),
            Lit::ByteStr(literal) => Lit::ByteStr(literal.into_owned()),
            Lit::CStr(literal) => Lit::CStr(literal.into_owned()),
            Lit::Byte(literal) => Lit::Byte(literal.into_owned()),
            Lit::Char(literal) => Lit::Char(literal.into_owned()),
            Lit::Int(literal) => Lit::Int(literal.into_owned()),
            Lit::Float(literal) => Lit::Float(literal.into_owned()),
            Lit::Bool(literal) => Lit::Bool(literal.into_owned()),
            Lit::Verbatim(literal) => Lit::Verbatim(literal.into_owned()),
        }
    }
}

/// Prints the literal's text. Width and fill of the format are applied.
impl fmt::Display for Lit<'_> {
    fn fmt(&self, f: &mut fmt::Formatter<'_>) -> fmt::Result {
        f.pad(self.text())
    }
}

/// Prints the name of the kind's struct, with the literal's text: `LitStr("\"a\"")`.
impl fmt::Debug for Lit<'_> {
    fn fmt(&self, f: &mut fmt::Formatter<'_>) -> fmt::Result {
        each_kind!(self, literal => fmt::Debug::fmt(literal, f))
    }
}

/// Parses a borrowed text with [`Lit::parse`]. The literal borrows the text.
impl<'t> TryFrom<&'t str> for Lit<'t> {
    type Error = ParseError;

    #[inline]
    fn try_from(text: &'t str) -> Result<Self, ParseError> {
        Lit::parse(text)
    }
}

/// Parses a `String` like [`Lit::parse`]. The literal keeps the `String`.
impl TryFrom<String> for Lit<'static> {
    type Error = ParseError;

    #[inline]
    fn try_from(text: String) -> Result<Self, ParseError> {
        Lit::parse_apart(Cow::Owned(text))
    }
}

/// Parses a text like [`Lit::parse`]. The literal has its own copy of the text.
impl FromStr for Lit<'static> {
    type Err = ParseError;

    #[inline]
    fn from_str(text: &str) -> Result<Self, ParseError> {
        Lit::parse_apart(Cow::Borrowed(text)).map(Lit::into_owned)
    }
}

#[cfg(test)]
mod tests {
    use super::*;
    use crate::is_token;
    use crate::rl_strict::limits::flaw_if_above_128_bits;
    use std::format;

    /// Calls `check` for each text that consists of `front` and up to `most` characters of `characters` after it.
    fn each_text(front: &str, characters: &str, most: usize, check: &mut dyn FnMut(&str)) {
        check(front);
        if most > 0 {
            for c in characters.chars() {
                each_text(&format!("{front}{c}"), characters, most - 1, check);
            }
        }
    }

    /// Returns the results of a literal's methods as one text.
    fn told(literal: &Lit<'_>) -> String {
        let more = match literal {
            Lit::Str(it) => format!("{:?} {:?}", it.body_range(), it.value()),
            Lit::ByteStr(it) => format!("{:?} {:?}", it.body_range(), it.value()),
            Lit::CStr(it) => format!("{:?} {:?}", it.body_range(), it.value()),
            Lit::Byte(it) => format!("{}", it.value()),
            Lit::Char(it) => format!("{:?}", it.value()),
            Lit::Int(it) => format!("{} {:?}", it.magnitude(), it.base10_digits()),
            Lit::Float(it) => format!("{:?}", it.base10_digits()),
            Lit::Bool(it) => format!("{}", it.value()),
            Lit::Verbatim(_) => String::new(),
        };
        let borrows = |value: &Cow<'_, str>| matches!(value, Cow::Borrowed(_));
        let borrows = match literal {
            Lit::Str(it) => borrows(&it.value()),
            Lit::Int(it) => borrows(&it.base10_digits()),
            Lit::Float(it) => borrows(&it.base10_digits()),
            _ => true,
        };
        format!("{literal:?} {} {more} {borrows}", literal.suffix())
    }

    /// Checks the results of `Lit::parse` for one text, borrowed and owned. A literal must be equal to the one that `Lit::of_text`
    /// reads. An error must have the reason that the proved code returns.
    fn check(text: &str, parsed: &mut usize) {
        let owned = Lit::try_from(String::from(text));
        match Lit::parse(text) {
            Ok(literal) => {
                *parsed += 1;
                assert!(is_token(text.strip_prefix('-').unwrap_or(text)), "{text:?}");
                assert_eq!(told(&literal), told(&Lit::of_text(text)), "{text:?}");
                assert_eq!(owned.map(|it| told(&it)), Ok(told(&literal)), "{text:?}");
            }
            Err(error) => {
                let flaw = match read(text, LineEnds::Text, true) {
                    Ok(reading) => flaw_if_above_128_bits(text, reading),
                    Err(flaw) => Some(flaw),
                };
                assert_eq!(flaw.map(ParseError::of_flaw), Some(error), "{text:?}");
                assert_eq!(owned, Err(error), "{text:?}");
            }
        }
    }

    #[test]
    fn what_is_parsed_is_what_is_read() {
        let mut parsed = 0;
        let mut each = |fronts: &str, characters: &str, most| {
            for front in fronts.split('§') {
                each_text(front, characters, most, &mut |text| {
                    check(text, &mut parsed)
                });
            }
        };
        each("", "019_.eE+-xbu8f", 4);
        let numbers = "1.5§1e5§0x§0b1§-1.§1_§1f3§1.0f3§1e+§12345.6E+";
        each(numbers, "1_.e+-2fé", 3);
        // The largest integer, and others of about 128 bits.
        each("340282366920938463463374607431768211455", "0_ef64", 3);
        each("0xFFFFFFFFFFFFFFFFFFFFFFFFFFFFFFFF", "0_ef64", 3);
        each("-34028236692093846346337460743176821145", "0_ef64", 3);
        let openers = "§r§b§c§br§cr#§r#\"§b'§\"\\u{1§'\\u{§c\"\\x4";
        each(openers, "\"'\\\r\n\tnxé#_ ", 3);
        each("§\"§'§b'§r#\"§\"a\\\n ", "\"'\\\r\n}_", 4);
        each("tru§fals§t§word", "etrus_", 3);
        assert!(parsed > 5_000, "{parsed}");
    }

    #[test]
    fn raw_strings_have_up_to_255_hashes() {
        for count in 250..260 {
            let hashes = "#".repeat(count);
            for opener in ["r", "br", "cr"] {
                for inside in ["", "a", "\"", "\r"] {
                    let text = format!("{opener}{hashes}\"{inside}\"{hashes}");
                    let is_rust = count < 256 && inside != "\r";
                    assert_eq!(Lit::parse(&text).is_ok(), is_rust, "{text}");
                    check(&text, &mut 0);
                }
            }
        }
    }
}
