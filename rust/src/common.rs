//! Functions and methods that all kinds of literals share.

use crate::rl_lenient::{parts, Body};
use alloc::borrow::Cow;
use alloc::string::String;
use core::ops::Range;

#[inline]
pub(crate) fn shifted(range: Range<usize>, by: usize) -> Range<usize> {
    range.start + by..range.end + by
}

#[inline]
pub(crate) fn owned(text: Cow<'_, str>) -> Cow<'static, str> {
    Cow::Owned(String::from(text))
}

/// Returns the text from the byte offset `suffix_at` to its end.
#[inline(always)]
pub(crate) fn suffix_of(text: &str, suffix_at: usize) -> &str {
    let body = Body::up_to(suffix_at, false);
    parts::suffix_of(text, &body)
}

/// Builds the source text of a documentation example: it parses a literal of struct `$name` from `$text`, and continues with the
/// assertions in `$said`.
///
/// Only rustdoc expands the macro, so a build without documentation is faster.
#[cfg(doc)]
macro_rules! example {
    (@literal LitVerbatim, $text:literal) => {
        concat!("use navyspindle::Lit;\n\nlet Lit::Verbatim(literal) = Lit::of_text(", stringify!($text), ") else { panic!() };\n")
    };
    (@literal $name:ident, $text:literal) => {
        concat!(
            "use navyspindle::", stringify!($name), ";\n\nlet literal = ", stringify!($name), "::parse(", stringify!($text), ")?;\n"
        )
    };
    ($name:ident, $text:literal, $($said:expr),+) => {
        concat!(
            "\n```\n", $crate::common::example!(@literal $name, $text), $($said),+, "\n# Ok::<(), navyspindle::ParseError>(())\n```"
        )
    };
}
#[cfg(doc)]
pub(crate) use example;

/// Writes the methods that the structs of all kinds of literals have. A struct's fields are `text` and those in `$field`. `$text`
/// is a literal for the examples.
macro_rules! text_type {
    ($name:ident($($field:ident),*), $text:literal) => {
        impl<'t> $name<'t> {
            /// Returns the literal's text as it was read.
            #[cfg_attr(doc, doc = $crate::common::example!($name, $text, "assert_eq!(literal.text(), ", stringify!($text), ");"))]
            #[inline]
            #[must_use]
            pub fn text(&self) -> &str {
                &self.text
            }

            /// Returns the literal's text as it was read. Borrowed text stays borrowed.
            #[cfg_attr(doc, doc = $crate::common::example!(
                $name, $text,
                "let text: std::borrow::Cow<'static, str> = literal.into_text();\nassert_eq!(text, ", stringify!($text), ");"
            ))]
            #[inline]
            #[must_use]
            pub fn into_text(self) -> alloc::borrow::Cow<'t, str> {
                self.text
            }

            /// Returns the literal with its own copy of the text.
            #[cfg_attr(doc, doc = $crate::common::example!(
                $name, $text,
                "let owned: navyspindle::", stringify!($name), "<'static> = literal.into_owned();\n",
                "assert_eq!(owned.text(), ", stringify!($text), ");"
            ))]
            #[inline]
            #[must_use]
            pub fn into_owned(self) -> $name<'static> {
                $name {
                    text: $crate::common::owned(self.text),
                    $($field: self.$field),*
                }
            }
        }

        /// Prints the literal's text. Width and fill of the format are applied.
        impl core::fmt::Display for $name<'_> {
            #[inline]
            fn fmt(&self, f: &mut core::fmt::Formatter<'_>) -> core::fmt::Result {
                f.pad(&self.text)
            }
        }

        impl core::fmt::Debug for $name<'_> {
            #[inline]
            fn fmt(&self, f: &mut core::fmt::Formatter<'_>) -> core::fmt::Result {
                f.debug_tuple(stringify!($name)).field(&self.text).finish()
            }
        }

        /// Literals of one kind are equal if their texts are.
        impl PartialEq for $name<'_> {
            #[inline]
            fn eq(&self, other: &Self) -> bool {
                self.text == other.text
            }
        }

        impl Eq for $name<'_> {}

        impl core::hash::Hash for $name<'_> {
            #[inline]
            fn hash<H: core::hash::Hasher>(&self, state: &mut H) {
                self.text.hash(state);
            }
        }
    };
}
pub(crate) use text_type;

/// Writes the methods of the structs of Rust's literals. Their first fields are `text` and `suffix_at`, and with `repr(C)` these
/// fields have the same offset in every variant of `Lit`. `$text` and its suffix are for the examples.
macro_rules! literal_type {
    ($name:ident, $variant:ident($($field:ident),*), $text:literal, $suffix:literal) => {
        $crate::common::text_type!($name(suffix_at, $($field),*), $text);

        impl<'t> $name<'t> {
            /// Parses the whole text as a literal of this kind, by the rules of [`Lit::parse`](crate::Lit::parse).
            ///
            /// # Errors
            ///
            /// Returns an error if the text isn't a Rust literal, if it is an integer above 128 bits, or if it is a literal of
            /// another kind. The error has the reason and its range.
            #[cfg_attr(doc, doc = $crate::common::example!(
                $name, $text,
                "assert_eq!(literal.text(), ", stringify!($text), ");\n",
                "assert!(", stringify!($name), "::parse(\"word\").is_err());"
            ))]
            #[inline]
            pub fn parse(text: &'t str) -> Result<Self, $crate::ParseError> {
                $name::try_from(text)
            }

            /// Returns the literal's suffix, which may be empty.
            #[cfg_attr(doc, doc = $crate::common::example!($name, $text, "assert_eq!(literal.suffix(), ", stringify!($suffix), ");"))]
            #[inline]
            #[must_use]
            pub fn suffix(&self) -> &str {
                $crate::common::suffix_of(&self.text, self.suffix_at)
            }

            /// Returns the byte range of the suffix in the literal's text. Without a suffix it is the empty range at the text's
            /// end.
            #[cfg_attr(doc, doc = $crate::common::example!($name, $text, "assert_eq!(&literal.text()[literal.suffix_range()], literal.suffix());"))]
            #[inline]
            #[must_use]
            pub fn suffix_range(&self) -> core::ops::Range<usize> {
                self.suffix_at..self.text.len()
            }

            /// Returns the literal's suffix. If the literal's text is borrowed, so is the suffix.
            #[cfg_attr(doc, doc = $crate::common::example!($name, $text, "assert_eq!(literal.into_suffix(), ", stringify!($suffix), ");"))]
            #[inline]
            #[must_use]
            pub fn into_suffix(self) -> alloc::borrow::Cow<'t, str> {
                match self.text {
                    alloc::borrow::Cow::Borrowed(text) => text[self.suffix_at..].into(),
                    alloc::borrow::Cow::Owned(text) => alloc::string::String::from(&text[self.suffix_at..]).into(),
                }
            }
        }

        /// Parses a borrowed text with `parse`. The literal borrows the text.
        impl<'t> TryFrom<&'t str> for $name<'t> {
            type Error = $crate::ParseError;

            #[inline]
            fn try_from(text: &'t str) -> Result<Self, $crate::ParseError> {
                match $crate::Lit::try_from(text) {
                    Ok($crate::Lit::$variant(literal)) => Ok(literal),
                    other => Err($crate::ParseError::of_kind($crate::Kind::$variant, other)),
                }
            }
        }

        /// Parses a `String` with `parse`. The literal keeps the `String`.
        impl TryFrom<alloc::string::String> for $name<'static> {
            type Error = $crate::ParseError;

            #[inline]
            fn try_from(text: alloc::string::String) -> Result<Self, $crate::ParseError> {
                match $crate::Lit::try_from(text) {
                    Ok($crate::Lit::$variant(literal)) => Ok(literal),
                    other => Err($crate::ParseError::of_kind($crate::Kind::$variant, other)),
                }
            }
        }

        /// Parses a text with `parse`. The literal has its own copy of the text.
        impl core::str::FromStr for $name<'static> {
            type Err = $crate::ParseError;

            #[inline]
            fn from_str(text: &str) -> Result<Self, $crate::ParseError> {
                match text.parse() {
                    Ok($crate::Lit::$variant(literal)) => Ok(literal),
                    other => Err($crate::ParseError::of_kind($crate::Kind::$variant, other)),
                }
            }
        }

        impl<'t> From<$name<'t>> for $crate::Lit<'t> {
            #[inline]
            fn from(literal: $name<'t>) -> Self {
                $crate::Lit::$variant(literal)
            }
        }

        /// Returns the literal if it is of this kind. Otherwise the error is the unchanged `Lit`.
        impl<'t> TryFrom<$crate::Lit<'t>> for $name<'t> {
            type Error = $crate::Lit<'t>;

            #[inline]
            fn try_from(literal: $crate::Lit<'t>) -> Result<Self, $crate::Lit<'t>> {
                match literal {
                    $crate::Lit::$variant(literal) => Ok(literal),
                    other => Err(other),
                }
            }
        }
    };
}
pub(crate) use literal_type;
