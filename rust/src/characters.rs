//! Byte literals and character literals.

#[cfg(doc)]
use crate::common::example;
use crate::common::literal_type;
use crate::rl_lenient::{parts, Body};
use crate::rl_syntax::Kind;
use crate::segments::quoted_type;
use alloc::borrow::Cow;
use core::ops::Range;

/// Defines the struct of a kind of literals with one value: a byte or a character. The parameters `$text` (a literal), `$of_text`
/// (its value), `$range` (the range of the text for that value) and `$end` (the offset of the closing apostrophe) are for the
/// examples.
macro_rules! single_type {
    ($(#[$doc:meta])* $name:ident, $variant:ident, $value:ident, $what:literal, $text:literal == $of_text:literal,
        $range:literal, $end:literal, $with_suffix:literal) => {
        $(#[$doc])*
        #[cfg_attr(doc, doc = concat!("\n\nWith the feature `writers`, `", stringify!($name), "::new` writes a value as a literal."))]
        #[derive(Clone)]
        #[repr(C)]
        pub struct $name<'t> {
            text: Cow<'t, str>,
            suffix_at: usize,
            value: $value,
        }

        literal_type!($name, $variant(value), $with_suffix, "_s");
        quoted_type!($name, $text, $range, $end);

        impl<'t> $name<'t> {
            const KIND: Kind = Kind::$variant;

            /// Creates the literal with this text. `unit` is the literal's value as a number.
            #[inline]
            pub(crate) fn of(text: Cow<'t, str>, suffix_at: usize, unit: u32) -> Self {
                let value = $value::try_from(unit).expect("the reading holds a value of the kind");
                $name {
                    text,
                    suffix_at,
                    value,
                }
            }

            /// Returns the offsets of the literal's parts. The closing apostrophe is the byte before the suffix.
            #[inline]
            fn parts(&self) -> Body {
                Body {
                    lo: Self::KIND.opener().len(),
                    hi: self.suffix_at - 1,
                    suffix_at: self.suffix_at,
                    plain: false,
                }
            }

            /// Returns the text between the quotes, as written.
            #[cfg_attr(doc, doc = example!($name, $text, "assert_eq!(literal.body(), r\"\\n\");"))]
            #[inline]
            #[must_use]
            pub fn body(&self) -> &str {
                parts::body_of(&self.text, &self.parts())
            }

            /// Returns the byte range of the text between the quotes.
            #[cfg_attr(doc, doc = example!($name, $text, "assert_eq!(literal.body_range(), ", $range, ");"))]
            #[inline]
            #[must_use]
            pub fn body_range(&self) -> Range<usize> {
                let parts = self.parts();
                parts.lo..parts.hi
            }

            #[doc = $what]
            #[cfg_attr(doc, doc = example!($name, $text, "assert_eq!(literal.value(), ", stringify!($of_text), ");"))]
            #[inline]
            #[must_use]
            pub fn value(&self) -> $value {
                self.value
            }
        }
    };
}

single_type! {
    /// A byte literal, such as `b'a'`.
    ///
    /// ```
    /// use navyspindle::LitByte;
    ///
    /// assert_eq!(LitByte::parse(r"b'\xFF'")?.value(), 255);
    /// # Ok::<(), navyspindle::ParseError>(())
    /// ```
    #[doc(alias = "ByteLit")]
    LitByte, Byte, u8, "The byte that the literal stands for.", r"b'\n'" == b'\n', "2..4", "4", "b'a'_s"
}

single_type! {
    /// A character literal, such as `'a'`.
    ///
    /// ```
    /// use navyspindle::LitChar;
    ///
    /// assert_eq!(LitChar::parse(r"'\u{e9}'")?.value(), 'é');
    /// # Ok::<(), navyspindle::ParseError>(())
    /// ```
    #[doc(alias = "CharLit")]
    LitChar, Char, char, "The character that the literal stands for.", r"'\n'" == '\n', "1..3", "3", "'a'_s"
}
