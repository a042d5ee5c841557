//! Constructors that make a literal from a value, such as `LitStr::new`.

use crate::rl_lenient;
use crate::style::Style;
use crate::value::{Float, Integer};
use crate::write::written_integer;
use crate::{
    write_byte, write_byte_str, write_c_str, write_char, write_integer, write_str, Base, LitBool,
    LitByte, LitByteStr, LitCStr, LitChar, LitFloat, LitInt, LitStr,
};
use alloc::borrow::Cow;
use alloc::format;
use core::ffi::CStr;

/// The panic message if a written value can't be parsed as a literal of its kind, which doesn't happen.
const WRITTEN: &str = "what is written for a value is a literal of its kind";

/// Defines the constructor `new` of the struct `$name`, which writes the value with the function `$write`. In the example, the
/// literal of `$value` has the text `$text`.
macro_rules! made {
    ($(#[$doc:meta])* $name:ident($of:ty) by $write:ident, $value:literal == $text:literal) => {
        impl $name<'static> {
            $(#[$doc])*
            ///
            /// ```
            #[cfg_attr(doc, doc = concat!("use navyspindle::", stringify!($name), ";\n"))]
            #[cfg_attr(doc, doc = concat!("let literal = ", stringify!($name), "::new(", stringify!($value), ");"))]
            #[cfg_attr(doc, doc = concat!("assert_eq!(literal.text(), ", stringify!($text), ");"))]
            /// ```
            #[inline]
            #[must_use]
            pub fn new(value: $of) -> Self {
                $name::try_from($write(value)).expect(WRITTEN)
            }
        }
    };
}

made! {
    /// Creates the string literal for the text, without a suffix, as [`write_str`] writes it.
    LitStr(&str) by write_str, "a\t" == r#""a\t""#
}
made! {
    /// Creates the byte string literal for the bytes, without a suffix, as [`write_byte_str`] writes it.
    LitByteStr(&[u8]) by write_byte_str, b"a\xff" == r#"b"a\xFF""#
}
made! {
    /// Creates the C string literal for the C string, without a suffix, as [`write_c_str`] writes it.
    LitCStr(&CStr) by write_c_str, c"a\n" == r#"c"a\n""#
}
made! {
    /// Creates the byte literal for the byte, without a suffix, as [`write_byte`] writes it.
    LitByte(u8) by write_byte, b'\n' == r"b'\n'"
}
made! {
    /// Creates the character literal for the character, without a suffix, as [`write_char`] writes it.
    LitChar(char) by write_char, '\n' == r"'\n'"
}

impl LitBool<'static> {
    /// Creates the literal for the `bool`. This constructor needs the feature `writers`.
    ///
    /// ```
    /// use navyspindle::LitBool;
    ///
    /// assert_eq!(LitBool::new(true).text(), "true");
    /// ```
    #[inline]
    #[must_use]
    pub fn new(value: bool) -> Self {
        let word = if value { "true" } else { "false" };
        LitBool::of(Cow::Borrowed(word), value)
    }
}

impl LitInt<'static> {
    /// Creates the integer literal for the number, in base ten, with the number's type as the suffix. A negative number has a
    /// minus. [`write_integer`] has other styles. This constructor needs the feature `writers`.
    ///
    /// ```
    /// use navyspindle::LitInt;
    ///
    /// assert_eq!(LitInt::suffixed(10u8).text(), "10u8");
    /// assert_eq!(LitInt::suffixed(-1i64).text(), "-1i64");
    /// ```
    #[must_use]
    pub fn suffixed<N: Integer>(value: N) -> Self {
        let style = Style::new().of_integers(Base::Decimal);
        let text = written_integer(value, style, Some(<N as rl_lenient::Integer>::TYPE));
        LitInt::try_from(text).expect(WRITTEN)
    }

    /// Creates the integer literal for the number without a suffix. In all else it is as [`LitInt::suffixed`].
    ///
    /// ```
    /// use navyspindle::LitInt;
    ///
    /// assert_eq!(LitInt::unsuffixed(10u8).text(), "10");
    /// ```
    #[must_use]
    pub fn unsuffixed<N: Integer>(value: N) -> Self {
        let text = write_integer(value, Base::Decimal, Style::new());
        LitInt::try_from(text).expect(WRITTEN)
    }
}

impl LitFloat<'static> {
    /// Creates the float literal for the number, with the number's type as the suffix. A negative number and `-0.0` have a minus.
    ///
    /// Returns `None` for infinities and NaN, which literals can't represent. The digits are those of std's `{:?}`: the fewest that
    /// represent the number. This constructor needs the feature `writers`.
    ///
    /// ```
    /// use navyspindle::LitFloat;
    ///
    /// assert_eq!(LitFloat::suffixed(0.1f32).unwrap().text(), "0.1f32");
    /// assert_eq!(LitFloat::suffixed(-1e300).unwrap().text(), "-1e300f64");
    /// assert!(LitFloat::suffixed(f64::INFINITY).is_none());
    /// ```
    #[must_use]
    pub fn suffixed<N: Float>(value: N) -> Option<Self> {
        let text = format!("{value:?}{}", N::TYPE);
        value
            .is_number()
            .then(|| LitFloat::try_from(text).expect(WRITTEN))
    }

    /// Creates the float literal for the number without a suffix. In all else it is as [`LitFloat::suffixed`].
    ///
    /// ```
    /// use navyspindle::LitFloat;
    ///
    /// assert_eq!(LitFloat::unsuffixed(1.0).unwrap().text(), "1.0");
    /// ```
    #[must_use]
    pub fn unsuffixed<N: Float>(value: N) -> Option<Self> {
        let text = format!("{value:?}");
        value
            .is_number()
            .then(|| LitFloat::try_from(text).expect(WRITTEN))
    }
}
