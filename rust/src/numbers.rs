//! Integer literals, float literals and their types.

#[cfg(doc)]
use crate::common::example;
use crate::common::literal_type;
use crate::contents::digits_of;
use crate::kind::Kind;
use crate::lit::Lit;
use crate::parse_error::ParseError;
use crate::rl_lenient::number_forms::float_suffix;
use crate::rl_lenient::{digit_runs, float_parts, integer_parts, is_signed};
use crate::rl_syntax::scan::{len_before_near_mark, Marks};
use crate::rl_syntax::IntegerType;
use alloc::borrow::Cow;
use alloc::format;
use alloc::string::String;
use core::fmt;
use core::str::FromStr;

/// The base of an integer literal's digits.
///
/// ```
/// use navyspindle::{Base, LitInt};
///
/// let base = LitInt::parse("0xFF_u8")?.base();
/// assert_eq!((base, base.radix(), base.prefix()), (Base::Hexadecimal, 16, "0x"));
/// # Ok::<(), navyspindle::ParseError>(())
/// ```
#[doc(alias = "IntegerBase")]
#[derive(Clone, Copy, Debug, PartialEq, Eq, PartialOrd, Ord, Hash)]
pub enum Base {
    /// Base two, as in `0b1`.
    Binary,
    /// Base eight, as in `0o7`.
    Octal,
    /// Base ten, as in `9`.
    Decimal,
    /// Base sixteen, as in `0xF`.
    Hexadecimal,
}

impl Base {
    #[inline]
    fn of(radix: u32) -> Base {
        match radix {
            2 => Base::Binary,
            8 => Base::Octal,
            16 => Base::Hexadecimal,
            _ => Base::Decimal,
        }
    }

    /// Returns the base as a number: 2, 8, 10 or 16.
    ///
    /// ```
    /// assert_eq!(navyspindle::Base::Octal.radix(), 8);
    /// ```
    #[inline]
    #[must_use]
    pub fn radix(self) -> u32 {
        match self {
            Base::Binary => 2,
            Base::Octal => 8,
            Base::Decimal => 10,
            Base::Hexadecimal => 16,
        }
    }

    /// Returns the prefix before the digits of this base: `0b`, `0o`, `0x`, or an empty text.
    ///
    /// ```
    /// assert_eq!(navyspindle::Base::Octal.prefix(), "0o");
    /// ```
    #[inline]
    #[must_use]
    pub fn prefix(self) -> &'static str {
        match self {
            Base::Binary => "0b",
            Base::Octal => "0o",
            Base::Decimal => "",
            Base::Hexadecimal => "0x",
        }
    }
}

macro_rules! number_types {
    ($($integer:ident $name:literal)*) => {
        /// A primitive number type that a literal's suffix may name, such as `u8` in `1u8`.
        ///
        /// ```
        /// use navyspindle::{LitFloat, LitInt, NumberType};
        ///
        /// assert_eq!(LitInt::parse("1u8")?.type_suffix(), Some(NumberType::U8));
        /// assert_eq!(LitInt::parse("1u9")?.type_suffix(), None);
        /// assert_eq!(LitFloat::parse("1.5f32")?.type_suffix(), Some(NumberType::F32));
        /// // An integer by its digits, and a float by its type.
        /// assert_eq!(LitInt::parse("1f64")?.type_suffix(), Some(NumberType::F64));
        /// # Ok::<(), navyspindle::ParseError>(())
        /// ```
        #[doc(alias = "FloatType")]
        #[doc(alias = "IntegerType")]
        #[derive(Clone, Copy, Debug, PartialEq, Eq, PartialOrd, Ord, Hash)]
        #[non_exhaustive]
        pub enum NumberType {
            $(#[doc = concat!("`", $name, "`.")] $integer,)*
            /// `f32`.
            F32,
            /// `f64`.
            F64,
        }

        impl NumberType {
            /// Returns the integer type, or `None` for `f32` and `f64`.
            #[inline]
            const fn integer(self) -> Option<IntegerType> {
                match self {
                    $(NumberType::$integer => Some(IntegerType::$integer),)*
                    NumberType::F32 | NumberType::F64 => None,
                }
            }

            #[inline]
            pub(crate) fn named(name: &str) -> Option<NumberType> {
                match (IntegerType::named(name), name) {
                    $((Some(IntegerType::$integer), _) => Some(NumberType::$integer),)*
                    (None, "f32") => Some(NumberType::F32),
                    (None, "f64") => Some(NumberType::F64),
                    (None, _) => None,
                }
            }
        }
    };
}

number_types! {
    U8 "u8" U16 "u16" U32 "u32" U64 "u64" U128 "u128" Usize "usize"
    I8 "i8" I16 "i16" I32 "i32" I64 "i64" I128 "i128" Isize "isize"
}

impl NumberType {
    /// Returns the type's name.
    ///
    /// ```
    /// assert_eq!(navyspindle::NumberType::Usize.as_str(), "usize");
    /// ```
    #[inline]
    #[must_use]
    pub fn as_str(self) -> &'static str {
        match self.integer() {
            Some(integer) => integer.name(),
            None if self == NumberType::F32 => "f32",
            None => "f64",
        }
    }

    /// Returns `true` for `f32` and `f64`.
    ///
    /// ```
    /// assert!(navyspindle::NumberType::F32.is_float());
    /// ```
    #[inline]
    #[must_use]
    pub const fn is_float(self) -> bool {
        self.integer().is_none()
    }

    /// Returns `true` for the integer types without negative numbers.
    ///
    /// ```
    /// assert!(navyspindle::NumberType::Usize.is_unsigned());
    /// ```
    #[inline]
    #[must_use]
    pub fn is_unsigned(self) -> bool {
        self.integer().is_some_and(|integer| !is_signed(integer))
    }
}

impl fmt::Display for NumberType {
    fn fmt(&self, f: &mut fmt::Formatter<'_>) -> fmt::Result {
        f.pad(self.as_str())
    }
}

/// Writes the methods that integer and float literals share. `$text` is a literal for the examples, `$number` is its value, and
/// `$negative` is `$text` with a minus.
macro_rules! number_type {
    ($name:ident, $text:literal == $number:literal, $negative:literal) => {
        impl $name<'_> {
            /// Returns `true` if the literal begins with a minus.
            #[cfg_attr(doc, doc = example!($name, $negative, "assert!(literal.is_negative());"))]
            #[inline]
            #[must_use]
            pub fn is_negative(&self) -> bool {
                digit_runs::is_negative(&self.text)
            }

            /// Returns the number type that the suffix names, or `None` if there is no suffix or if it names no number type.
            #[cfg_attr(doc, doc = example!($name, $text, "assert_eq!(literal.type_suffix(), None);"))]
            #[inline]
            #[must_use]
            pub fn type_suffix(&self) -> Option<NumberType> {
                NumberType::named(self.suffix())
            }

            /// Parses the literal's decimal digits with the `FromStr` of the type `N`. As in `syn`, the suffix is ignored.
            ///
            /// The result is 10 for `10k`, 0 for `0XFF`, and infinity for `1e400`. [`value`](Self::value) rejects these literals.
            ///
            /// # Errors
            ///
            /// Returns the error of the type's `FromStr`.
            #[cfg_attr(doc, doc = example!($name, $text, "assert_eq!(literal.base10_parse::<f64>(), Ok(", stringify!($number), "));"))]
            #[inline]
            pub fn base10_parse<N: FromStr>(&self) -> Result<N, N::Err> {
                self.base10_digits().parse()
            }
        }
    };
}

/// An integer literal, such as `1_000` or `-0xFF_u8`.
///
/// With the feature `writers`, `LitInt::suffixed` and `LitInt::unsuffixed` write a number as a literal.
///
/// ```
/// use navyspindle::{Base, LitInt, NumberType};
///
/// let literal = LitInt::parse("0xFF_u8")?;
/// assert_eq!(literal.base10_digits(), "255");
/// assert_eq!(literal.value::<u8>(), Ok(255));
/// assert_eq!((literal.base(), literal.type_suffix()), (Base::Hexadecimal, Some(NumberType::U8)));
/// # Ok::<(), navyspindle::ParseError>(())
/// ```
#[doc(alias = "IntegerLit")]
#[derive(Clone)]
#[repr(C)]
pub struct LitInt<'t> {
    text: Cow<'t, str>,
    suffix_at: usize,
    // The lower and upper 64 bits of the magnitude. They are two fields so that a literal has the same size as one of another kind.
    low: u64,
    high: u64,
    is_plain: bool,
}

literal_type!(LitInt, Int(low, high, is_plain), "1_000u16", "u16");
number_type!(LitInt, "12" == 12.0, "-12");

/// A float literal, such as `1.5e3` or `2.0f32`.
///
/// With the feature `writers`, `LitFloat::suffixed` and `LitFloat::unsuffixed` write a number as a literal.
///
/// ```
/// use navyspindle::LitFloat;
///
/// let literal = LitFloat::parse("1_0.5E+3f64")?;
/// assert_eq!(literal.base10_digits(), "10.5e3");
/// assert_eq!(literal.value::<f64>()?, 10500.0);
/// assert_eq!((literal.integer_part(), literal.fractional_part()), ("1_0", Some("5")));
/// assert_eq!(literal.exponent_part(), Some("+3"));
/// # Ok::<(), Box<dyn std::error::Error>>(())
/// ```
#[doc(alias = "FloatLit")]
#[derive(Clone)]
#[repr(C)]
pub struct LitFloat<'t> {
    text: Cow<'t, str>,
    suffix_at: usize,
    // The number of bytes before the suffix, and before an underscore there. `value` gives this text to std.
    pub(crate) number_len: usize,
}

literal_type!(LitFloat, Float(number_len), "1.5f32", "f32");
number_type!(LitFloat, "1.5" == 1.5, "-1.5");

impl<'t> LitInt<'t> {
    /// Reads an integer literal as `syn` does. It is `syn`'s `LitInt::new` without a span and without a panic.
    ///
    /// It accepts some texts that Rust rejects, such as `1e`. [`LitInt::parse`] reads as Rust does. [`LitInt::suffixed`] and
    /// [`LitInt::unsuffixed`] create a literal from a number.
    ///
    /// # Errors
    ///
    /// Returns an error if the text isn't an integer, or is one above 128 bits.
    ///
    /// ```
    /// use navyspindle::{FlawKind, LitInt};
    ///
    /// assert_eq!(LitInt::of_text("0x1F_u8")?.base10_digits(), "31");
    /// assert!(LitInt::of_text("1.0").is_err());
    /// let large = "340282366920938463463374607431768211456";
    /// assert_eq!(LitInt::of_text(large).unwrap_err().kind(), FlawKind::TooLarge);
    /// # Ok::<(), navyspindle::ParseError>(())
    /// ```
    pub fn of_text(text: impl Into<Cow<'t, str>>) -> Result<Self, ParseError> {
        match Lit::of_text(text) {
            Lit::Int(literal) => Ok(literal),
            Lit::Verbatim(literal) => Err(ParseError::of_integer(literal)),
            other => Err(ParseError::of_kind(Kind::Int, Ok(other))),
        }
    }

    /// Creates the literal with this text and magnitude. `is_plain` says that the whole text before the suffix is the number in
    /// base ten, as `base10_digits` returns it.
    #[inline]
    pub(crate) fn of(
        text: Cow<'t, str>,
        suffix_at: usize,
        magnitude: u128,
        is_plain: bool,
    ) -> Self {
        LitInt {
            text,
            suffix_at,
            low: magnitude as u64,
            high: (magnitude >> 64) as u64,
            is_plain,
        }
    }

    /// Returns the integer's value without its sign.
    ///
    /// ```
    /// use navyspindle::LitInt;
    ///
    /// assert_eq!(LitInt::parse("-0x10")?.magnitude(), 16);
    /// # Ok::<(), navyspindle::ParseError>(())
    /// ```
    #[inline]
    #[must_use]
    pub fn magnitude(&self) -> u128 {
        u128::from(self.high) << 64 | u128::from(self.low)
    }

    /// Returns the number in base ten, after a minus if the literal has one. The digits are borrowed if the literal's text has them
    /// in this form.
    ///
    /// The proved code computes the number. If the text has another form, Rust's std writes the number.
    ///
    /// ```
    /// use navyspindle::LitInt;
    ///
    /// assert_eq!(LitInt::parse("-0x1_0u8")?.base10_digits(), "-16");
    /// # Ok::<(), navyspindle::ParseError>(())
    /// ```
    #[inline]
    #[must_use]
    pub fn base10_digits(&self) -> Cow<'_, str> {
        if self.is_plain {
            Cow::Borrowed(&self.text[..self.suffix_at])
        } else {
            Cow::Owned(self.decimal())
        }
    }

    fn decimal(&self) -> String {
        let sign = if self.is_negative() { "-" } else { "" };
        format!("{sign}{}", self.magnitude())
    }

    /// Returns the base of the literal's digits.
    ///
    /// ```
    /// use navyspindle::{Base, LitInt};
    ///
    /// assert_eq!(LitInt::parse("0b101")?.base(), Base::Binary);
    /// # Ok::<(), navyspindle::ParseError>(())
    /// ```
    #[inline]
    #[must_use]
    pub fn base(&self) -> Base {
        integer_parts(&self.text).map_or(Base::Decimal, |parts| Base::of(parts.radix))
    }

    /// Returns the digits as written, without sign, prefix and suffix.
    ///
    /// ```
    /// use navyspindle::LitInt;
    ///
    /// assert_eq!(LitInt::parse("-0xF_F_u8")?.digits(), "F_F_");
    /// # Ok::<(), navyspindle::ParseError>(())
    /// ```
    #[doc(alias = "raw_main_part")]
    #[inline]
    #[must_use]
    pub fn digits(&self) -> &str {
        integer_parts(&self.text).map_or("", |parts| parts.digits)
    }

    /// Returns the byte range of the literal's digits in its text. The range ends at the suffix.
    ///
    /// ```
    /// let literal = navyspindle::LitInt::parse("-0xF_F_u8")?;
    /// assert_eq!((literal.digits_range(), &literal.text()[literal.digits_range()]), (3..7, literal.digits()));
    /// # Ok::<(), navyspindle::ParseError>(())
    /// ```
    #[inline]
    #[must_use]
    pub fn digits_range(&self) -> core::ops::Range<usize> {
        self.suffix_at - self.digits().len()..self.suffix_at
    }
}

/// The bytes that differ between a float's text and its digits: `float_digits_into` leaves out `_` and `+`, and changes `E` to `e`.
const CHANGED: Marks = Marks {
    first: b'_',
    second: b'+',
    third: b'E',
    fourth: b'E',
};

/// Returns the number of bytes at the start of a float's text that its digits repeat unchanged.
#[inline(never)]
fn plain_len(numeral: &str) -> usize {
    len_before_near_mark(CHANGED, numeral.as_bytes())
}

impl<'t> LitFloat<'t> {
    /// Reads a float literal as `syn` does. It is `syn`'s `LitFloat::new` without a span and without a panic.
    ///
    /// Digits without a dot and an exponent are a float here too, with any suffix: `1f64`, which [`Lit::parse`](crate::Lit::parse)
    /// reads as an integer. [`LitFloat::parse`] reads as Rust does. [`LitFloat::suffixed`] and [`LitFloat::unsuffixed`] create a
    /// literal from a number.
    ///
    /// # Errors
    ///
    /// Returns an error if the text isn't a float.
    ///
    /// ```
    /// use navyspindle::LitFloat;
    ///
    /// assert_eq!(LitFloat::of_text("1_0.5")?.base10_digits(), "10.5");
    /// let literal = LitFloat::of_text("1f64")?;
    /// assert_eq!((literal.base10_digits().as_ref(), literal.suffix()), ("1", "f64"));
    /// assert_eq!(LitFloat::of_text("0x1F")?.suffix(), "x1F");
    /// assert!(LitFloat::of_text("word").is_err());
    /// # Ok::<(), navyspindle::ParseError>(())
    /// ```
    pub fn of_text(text: impl Into<Cow<'t, str>>) -> Result<Self, ParseError> {
        let text = text.into();
        match float_suffix(&text) {
            Some(suffix) => {
                let suffix_at = text.len() - suffix.len();
                Ok(LitFloat::of(text, suffix_at))
            }
            None => Err(ParseError::of_kind(Kind::Float, Ok(Lit::of_text(text)))),
        }
    }

    #[inline]
    pub(crate) fn of(text: Cow<'t, str>, suffix_at: usize) -> Self {
        let is_after_underscore = text.as_bytes()[..suffix_at].ends_with(b"_");
        LitFloat {
            text,
            suffix_at,
            number_len: suffix_at - usize::from(is_after_underscore),
        }
    }

    /// Returns the text before the suffix, without underscores and pluses and with `E` as `e`. The result is borrowed if the
    /// literal's text has this form.
    ///
    /// ```
    /// use navyspindle::LitFloat;
    /// use std::borrow::Cow;
    ///
    /// assert_eq!(LitFloat::parse("-1_0.5E+3f64")?.base10_digits(), "-10.5e3");
    /// assert!(matches!(LitFloat::parse("1.5_f64")?.base10_digits(), Cow::Borrowed("1.5")));
    /// # Ok::<(), navyspindle::ParseError>(())
    /// ```
    #[inline]
    #[must_use]
    pub fn base10_digits(&self) -> Cow<'_, str> {
        let number = self.number_part();
        let (front, rest) = number.split_at(plain_len(number));
        if rest.bytes().all(|byte| byte == b'_') {
            Cow::Borrowed(front)
        } else {
            Cow::Owned(digits_of(front, rest))
        }
    }

    /// Returns the text of the float before its suffix, including a minus.
    ///
    /// ```
    /// use navyspindle::LitFloat;
    ///
    /// assert_eq!(LitFloat::parse("-1_0.5E+3f64")?.number_part(), "-1_0.5E+3");
    /// # Ok::<(), navyspindle::ParseError>(())
    /// ```
    #[inline]
    #[must_use]
    pub fn number_part(&self) -> &str {
        &self.text[..self.suffix_at]
    }

    /// Returns the digits before the dot as written, without a sign.
    ///
    /// ```
    /// use navyspindle::LitFloat;
    ///
    /// assert_eq!(LitFloat::parse("-1_0.5")?.integer_part(), "1_0");
    /// # Ok::<(), navyspindle::ParseError>(())
    /// ```
    #[inline]
    #[must_use]
    pub fn integer_part(&self) -> &str {
        float_parts(&self.text).map_or("", |parts| parts.integer)
    }

    /// Returns the digits after the dot as written, or `None` if there is no dot.
    ///
    /// ```
    /// use navyspindle::LitFloat;
    ///
    /// assert_eq!(LitFloat::parse("1.5_0e3")?.fractional_part(), Some("5_0"));
    /// assert_eq!(LitFloat::parse("1.")?.fractional_part(), Some(""));
    /// assert_eq!(LitFloat::parse("1e3")?.fractional_part(), None);
    /// # Ok::<(), navyspindle::ParseError>(())
    /// ```
    #[inline]
    #[must_use]
    pub fn fractional_part(&self) -> Option<&str> {
        float_parts(&self.text)?.fraction
    }

    /// Returns the text of the exponent after its letter, with a sign, or `None` if the float has no exponent.
    ///
    /// ```
    /// use navyspindle::LitFloat;
    ///
    /// assert_eq!(LitFloat::parse("1E-0_3")?.exponent_part(), Some("-0_3"));
    /// assert_eq!(LitFloat::parse("1.5")?.exponent_part(), None);
    /// # Ok::<(), navyspindle::ParseError>(())
    /// ```
    #[inline]
    #[must_use]
    pub fn exponent_part(&self) -> Option<&str> {
        float_parts(&self.text)?.exponent
    }
}
