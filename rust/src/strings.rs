//! String literals, byte string literals and C string literals.

#[cfg(doc)]
use crate::common::example;
use crate::common::literal_type;
use crate::contents::{bytes_of, text_of};
use crate::rl_lenient::{parts, Body};
use crate::rl_syntax::Kind;
use crate::segments::quoted_type;
use alloc::borrow::Cow;
use alloc::ffi::CString;
use core::ops::Range;

/// Defines the struct of a kind of strings. `$cooked`, `$raw` and `$pieces` are literals for the examples. The first byte of the
/// value of `$pieces` comes from the range `$first` of its text, and the second one from the offset `$place`.
macro_rules! string_type {
    ($(#[$doc:meta])* $name:ident, $variant:ident, $cooked:literal, $raw:literal, $pieces:literal, $first:literal, $place:literal) => {
        $(#[$doc])*
        #[cfg_attr(doc, doc = concat!("\n\nWith the feature `writers`, `", stringify!($name), "::new` writes a value as a literal."))]
        #[derive(Clone)]
        #[repr(C)]
        pub struct $name<'t> {
            text: Cow<'t, str>,
            suffix_at: usize,
            lo: usize,
            hi: usize,
            is_plain: bool,
        }

        literal_type!($name, $variant(lo, hi, is_plain), $cooked, "_s");
        quoted_type!($name, $pieces, $first, $place);

        impl<'t> $name<'t> {
            #[inline(always)]
            pub(crate) fn of(text: Cow<'t, str>, body: Body) -> Self {
                $name {
                    text,
                    lo: body.lo,
                    hi: body.hi,
                    suffix_at: body.suffix_at,
                    is_plain: body.plain,
                }
            }

            const KIND: Kind = Kind::$variant;

            /// Returns the byte offsets of the literal's parts.
            #[inline(always)]
            fn parts(&self) -> Body {
                Body {
                    lo: self.lo,
                    hi: self.hi,
                    suffix_at: self.suffix_at,
                    plain: self.is_plain,
                }
            }

            /// Returns the text between the quotes, as written.
            #[cfg_attr(doc, doc = example!($name, $raw, r#"assert_eq!(literal.body(), r"a\n");"#))]
            #[inline]
            #[must_use]
            pub fn body(&self) -> &str {
                parts::body_of(&self.text, &self.parts())
            }

            /// Returns the byte range of the text between the quotes.
            #[cfg_attr(doc, doc = example!($name, $raw, r#"assert_eq!(&literal.text()[literal.body_range()], r"a\n");"#))]
            #[inline]
            #[must_use]
            pub fn body_range(&self) -> Range<usize> {
                self.lo..self.hi
            }

            /// Returns `true` if the literal is raw. A raw literal has no escapes.
            #[cfg_attr(doc, doc = example!(
                $name, $raw,
                "assert!(literal.is_raw());\nassert!(!", stringify!($name), "::parse(", stringify!($cooked), ")?.is_raw());"
            ))]
            #[inline]
            #[must_use]
            pub fn is_raw(&self) -> bool {
                parts::is_raw(Self::KIND, &self.text, &self.parts())
            }

            /// Returns the number of `#` before the opening quote of a raw literal, or 0 for any other literal.
            #[cfg_attr(doc, doc = example!($name, $raw, "assert_eq!(literal.hashes(), 1);"))]
            #[inline]
            #[must_use]
            pub fn hashes(&self) -> usize {
                parts::hashes(Self::KIND, &self.text, &self.parts())
            }
        }
    };
}

string_type! {
    /// A string literal, such as `"a\n"` or `r#"b"#`.
    ///
    /// ```
    /// use navyspindle::LitStr;
    ///
    /// let literal = LitStr::parse(r#""a\x41\n"q"#)?;
    /// assert_eq!(literal.value(), "aA\n");
    /// assert_eq!((literal.body(), literal.suffix()), (r"a\x41\n", "q"));
    /// # Ok::<(), navyspindle::ParseError>(())
    /// ```
    #[doc(alias = "StringLit")]
    LitStr, Str, r#""a"_s"#, r##"r#"a\n"#"##, r#""a\x41""#, "1..2", "2"
}

string_type! {
    /// A byte string literal, such as `b"a\xFF"` or `br"b"`.
    ///
    /// ```
    /// use navyspindle::LitByteStr;
    ///
    /// assert_eq!(*LitByteStr::parse(r#"b"a\xFF""#)?.value(), *b"a\xFF");
    /// # Ok::<(), navyspindle::ParseError>(())
    /// ```
    #[doc(alias = "ByteStringLit")]
    LitByteStr, ByteStr, r#"b"a"_s"#, r##"br#"a\n"#"##, r#"b"a\x41""#, "2..3", "3"
}

string_type! {
    /// A C string literal, such as `c"a"` or `cr"b"`.
    ///
    /// ```
    /// use navyspindle::LitCStr;
    ///
    /// assert_eq!(LitCStr::parse(r#"c"a\n""#)?.c_string().as_c_str(), c"a\n");
    /// # Ok::<(), navyspindle::ParseError>(())
    /// ```
    #[doc(alias = "CStringLit")]
    LitCStr, CStr, r#"c"a"_s"#, r##"cr#"a\n"#"##, r#"c"a\x41""#, "2..3", "3"
}

impl<'t> LitStr<'t> {
    /// Returns the text that the literal represents. The text is borrowed if the literal has no escapes.
    ///
    /// ```
    /// use navyspindle::LitStr;
    ///
    /// assert_eq!(LitStr::parse(r#""\u{e9}""#)?.value(), "é");
    /// # Ok::<(), navyspindle::ParseError>(())
    /// ```
    #[inline]
    #[must_use]
    pub fn value(&self) -> Cow<'_, str> {
        text_in(&self.text, self.parts())
    }

    /// Returns the text that the literal represents. If the literal has no escapes and its own text is borrowed, the result is
    /// borrowed for as long.
    ///
    /// ```
    /// use navyspindle::{source, Lit};
    /// use std::borrow::Cow;
    ///
    /// fn strings(text: &str) -> Vec<Cow<'_, str>> {
    ///     let strings = source(text).filter_map(|item| match item {
    ///         Ok((_, Lit::Str(string))) => Some(string.into_value()),
    ///         _ => None,
    ///     });
    ///     strings.collect()
    /// }
    /// assert_eq!(strings(r#"f("a", "\x41")"#), ["a", "A"]);
    /// ```
    #[inline]
    #[must_use]
    pub fn into_value(self) -> Cow<'t, str> {
        let parts = self.parts();
        match self.text {
            Cow::Borrowed(text) => text_in(text, parts),
            Cow::Owned(text) => Cow::Owned(text_in(&text, parts).into_owned()),
        }
    }
}

/// Returns the value of the string `text`, which is borrowed if the string has no escapes.
#[inline]
fn text_in(text: &str, body: Body) -> Cow<'_, str> {
    match parts::plain_body_of(text, &body) {
        Some(value) => Cow::Borrowed(value),
        None => Cow::Owned(text_of(parts::body_of(text, &body))),
    }
}

/// Returns the value of the byte string or C string `text`, which is borrowed if the string has no escapes.
#[inline]
fn bytes_in(kind: Kind, text: &str, body: Body) -> Cow<'_, [u8]> {
    match parts::plain_body_of(text, &body) {
        Some(value) => Cow::Borrowed(value.as_bytes()),
        None => Cow::Owned(bytes_of(kind, parts::body_of(text, &body))),
    }
}

/// Writes the methods that return the value of a byte string or a C string as bytes. `$text` is a literal for the examples, and
/// `$value` is its value.
macro_rules! byte_values {
    ($(#[$doc:meta])* $name:ident, $text:literal == $value:literal) => {
        impl<'t> $name<'t> {
            $(#[$doc])*
            #[cfg_attr(doc, doc = example!($name, $text, "assert_eq!(*literal.value(), *", stringify!($value), ");"))]
            #[inline]
            #[must_use]
            pub fn value(&self) -> Cow<'_, [u8]> {
                bytes_in(Self::KIND, &self.text, self.parts())
            }

            /// Returns the bytes that the literal represents. If the literal has no escapes and its own text is borrowed, the
            /// result is borrowed for as long.
            #[cfg_attr(doc, doc = example!($name, $text, "assert_eq!(*literal.into_value(), *", stringify!($value), ");"))]
            #[inline]
            #[must_use]
            pub fn into_value(self) -> Cow<'t, [u8]> {
                let parts = self.parts();
                match self.text {
                    Cow::Borrowed(text) => bytes_in(Self::KIND, text, parts),
                    Cow::Owned(text) => {
                        Cow::Owned(bytes_in(Self::KIND, &text, parts).into_owned())
                    }
                }
            }
        }
    };
}

byte_values! {
    /// Returns the bytes that the literal represents. They are borrowed if the literal has no escapes.
    LitByteStr, r#"b"a\xFF""# == b"a\xFF"
}
byte_values! {
    /// Returns the bytes that the literal represents, without a final 0. None of them is 0. They are borrowed if the literal has no
    /// escapes.
    LitCStr, r#"c"a\xFF""# == b"a\xFF"
}

impl LitCStr<'_> {
    /// Returns the C string that the literal represents.
    ///
    /// ```
    /// use navyspindle::LitCStr;
    ///
    /// assert_eq!(LitCStr::parse(r#"c"é""#)?.c_string().as_c_str(), c"é");
    /// # Ok::<(), navyspindle::ParseError>(())
    /// ```
    #[inline]
    #[must_use]
    pub fn c_string(&self) -> CString {
        CString::new(self.value()).expect("a C string holds no 0")
    }
}
