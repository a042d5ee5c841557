//! The numbers that literals represent, as values of Rust's types.

use crate::common::shifted;
use crate::numbers::{Base, LitFloat, LitInt, NumberType};
use crate::rl_lenient::{self, ValueFlaw};
use core::fmt;
use core::ops::Range;

mod sealed {
    use crate::numbers::NumberType;
    use crate::rl_lenient::{self, ValueFlaw};
    use core::fmt::Debug;
    use core::str::FromStr;

    /// The trait that the method `value` of `LitInt` and `LitFloat` requires of a number type.
    pub trait Typed: FromStr {
        const TYPE: NumberType;

        /// Returns the number that an integer literal represents, from its magnitude, or `None` for a float type.
        fn integer_value(
            text: &str,
            suffix_at: usize,
            magnitude: u128,
        ) -> Option<Result<Self, ValueFlaw>>;

        /// Whether the value is a number. Infinities and NaN aren't.
        #[inline]
        fn is_number(&self) -> bool {
            true
        }
    }

    /// The trait that functions which write integers require of an integer type.
    pub trait Whole: Typed + rl_lenient::Integer {
        /// Whether the number is less than 0.
        #[cfg(feature = "writers")]
        fn is_negative(&self) -> bool;

        /// Returns the number without its sign.
        #[cfg(feature = "writers")]
        fn magnitude(&self) -> u128;
    }

    /// The trait that functions which write floats require of a float type.
    pub trait Real: Typed + Debug {}
}

/// A primitive number type of Rust. [`LitInt::value`] and [`LitFloat::value`] return values of such a type. The trait is sealed.
///
/// ```
/// use navyspindle::{LitInt, Number, ValueError};
///
/// fn all<N: Number>(texts: &[&str]) -> Result<Vec<N>, ValueError> {
///     texts.iter().map(|text| LitInt::parse(text).unwrap().value()).collect()
/// }
/// assert_eq!(all::<i8>(&["-128", "0x7F", "1i8"])?, [-128, 127, 1]);
/// # Ok::<(), ValueError>(())
/// ```
pub trait Number: sealed::Typed {}

/// A primitive integer type of Rust, a sealed trait. [`write_integer`](crate::write_integer) and [`LitInt::suffixed`] accept its values.
///
/// ```
/// use navyspindle::{Integer, LitInt};
///
/// fn all<N: Integer>(numbers: &[N]) -> Vec<LitInt<'static>> {
///     numbers.iter().map(|number| LitInt::suffixed(*number)).collect()
/// }
/// assert_eq!(all(&[1u8, 2])[1].text(), "2u8");
/// ```
pub trait Integer: Number + Copy + sealed::Whole {}

/// `f32` or `f64`. [`LitFloat::suffixed`] accepts values of these types. The trait is sealed.
///
/// ```
/// use navyspindle::{Float, LitFloat};
///
/// fn all<N: Float>(numbers: &[N]) -> Option<Vec<LitFloat<'static>>> {
///     numbers.iter().map(|number| LitFloat::suffixed(*number)).collect()
/// }
/// assert_eq!(all(&[0.5f32, 1.0]).unwrap()[1].text(), "1.0f32");
/// assert!(all(&[f64::NAN]).is_none());
/// ```
pub trait Float: Number + Copy + sealed::Real {}

macro_rules! floats {
    ($($name:ident $variant:ident),*) => {$(
        impl sealed::Typed for $name {
            const TYPE: NumberType = NumberType::$variant;

            #[inline]
            fn integer_value(_: &str, _: usize, _: u128) -> Option<Result<Self, ValueFlaw>> {
                None
            }

            #[inline]
            fn is_number(&self) -> bool {
                self.is_finite()
            }
        }

        impl Number for $name {}
        impl sealed::Real for $name {}
        impl Float for $name {}
    )*};
}

floats!(f32 F32, f64 F64);

macro_rules! integers {
    ($($name:ident $variant:ident),* => $is_negative:expr, $magnitude:ident) => {$(
        impl sealed::Typed for $name {
            const TYPE: NumberType = NumberType::$variant;

            #[inline]
            fn integer_value(
                text: &str,
                suffix_at: usize,
                magnitude: u128,
            ) -> Option<Result<Self, ValueFlaw>> {
                Some(rl_lenient::integer_value(text, suffix_at, magnitude))
            }
        }

        impl Number for $name {}

        impl sealed::Whole for $name {
            #[cfg(feature = "writers")]
            #[inline]
            fn is_negative(&self) -> bool {
                let is_negative: fn($name) -> bool = $is_negative;
                is_negative(*self)
            }

            #[cfg(feature = "writers")]
            #[inline]
            fn magnitude(&self) -> u128 {
                $magnitude!(*self) as u128
            }
        }

        impl Integer for $name {}
    )*};
}

#[cfg(feature = "writers")]
macro_rules! itself {
    ($number:expr) => {
        $number
    };
}

#[cfg(feature = "writers")]
macro_rules! without_sign {
    ($number:expr) => {
        ($number).unsigned_abs()
    };
}

integers!(u8 U8, u16 U16, u32 U32, u64 U64, u128 U128, usize Usize => |_| false, itself);
integers!(i8 I8, i16 I16, i32 I32, i64 I64, i128 I128, isize Isize => |number| number < 0, without_sign);

/// The reason why a literal isn't a value of a number type, with its byte range.
///
/// ```
/// use navyspindle::{LitInt, NumberType};
///
/// let error = LitInt::parse("0x1FFu8").unwrap().value::<u8>().unwrap_err();
/// assert_eq!((error.expected(), error.range()), (NumberType::U8, 0..5));
/// assert_eq!(error.to_string(), "number out of range for u8 at byte 0");
/// ```
#[derive(Clone, Debug, PartialEq, Eq, Hash)]
pub struct ValueError {
    kind: ValueErrorKind,
    wanted: NumberType,
    range: Range<usize>,
}

/// The reason why a literal isn't a value of a number type.
///
/// ```
/// use navyspindle::{LitInt, ValueErrorKind};
///
/// let error = LitInt::parse("10k").unwrap().value::<u8>().unwrap_err();
/// assert_eq!(error.kind(), ValueErrorKind::Suffix);
/// ```
#[derive(Clone, Copy, Debug, PartialEq, Eq, Hash)]
#[non_exhaustive]
pub enum ValueErrorKind {
    /// The literal's suffix names another type, or isn't the name of a type.
    Suffix,
    /// The literal is an integer and the type is a float type, or the literal is a float and the type is an integer type.
    Form,
    /// The literal has a minus, and the type has no negative numbers.
    Minus,
    /// The number is out of the type's range. A float is out of range if it rounds to infinity.
    OutOfRange,
}

/// Prints a message that doesn't name the type. [`ValueError::message`] names it.
impl fmt::Display for ValueErrorKind {
    fn fmt(&self, f: &mut fmt::Formatter<'_>) -> fmt::Result {
        f.pad(match self {
            ValueErrorKind::Suffix => "suffix of another type",
            ValueErrorKind::Form => "integer in place of a float, or float in place of an integer",
            ValueErrorKind::Minus => "minus before a number of an unsigned type",
            ValueErrorKind::OutOfRange => "number out of the type's range",
        })
    }
}

impl core::error::Error for ValueErrorKind {}

impl ValueError {
    /// Returns the kind of the error.
    ///
    /// ```
    /// use navyspindle::{LitFloat, ValueErrorKind};
    ///
    /// let error = LitFloat::parse("1e400").unwrap().value::<f64>().unwrap_err();
    /// assert_eq!(error.kind(), ValueErrorKind::OutOfRange);
    /// ```
    #[inline]
    #[must_use]
    pub fn kind(&self) -> ValueErrorKind {
        self.kind
    }

    /// Returns the number type that the caller requested.
    ///
    /// ```
    /// use navyspindle::{LitInt, NumberType};
    ///
    /// let error = LitInt::parse("-1").unwrap().value::<u8>().unwrap_err();
    /// assert_eq!(error.expected(), NumberType::U8);
    /// ```
    #[inline]
    #[must_use]
    pub fn expected(&self) -> NumberType {
        self.wanted
    }

    /// Returns the byte range of the wrong part of the literal's text: its suffix, its minus, or the whole text before the suffix.
    ///
    /// ```
    /// assert_eq!(navyspindle::LitInt::parse("10k").unwrap().value::<u8>().unwrap_err().range(), 2..3);
    /// ```
    #[doc(alias = "span")]
    #[inline]
    #[must_use]
    pub fn range(&self) -> Range<usize> {
        self.range.clone()
    }

    /// Returns the byte offset at which [`range`](ValueError::range) begins. The error's message names this offset.
    ///
    /// ```
    /// assert_eq!(navyspindle::LitInt::parse("10k").unwrap().value::<u8>().unwrap_err().offset(), 2);
    /// ```
    #[inline]
    #[must_use]
    pub fn offset(&self) -> usize {
        self.range.start
    }

    /// Returns the error with its range moved forward by `by` bytes. Use it if the literal is part of a longer text and begins at
    /// the byte offset `by`.
    ///
    /// ```
    /// let error = navyspindle::LitInt::parse("10k").unwrap().value::<u8>().unwrap_err();
    /// assert_eq!(error.shifted(100).range(), 102..103);
    /// ```
    #[inline]
    #[must_use]
    pub fn shifted(self, by: usize) -> Self {
        ValueError {
            range: shifted(self.range, by),
            ..self
        }
    }

    /// Returns the error's message without the byte offset. Use it for a message that has a position of its own, such as a macro's.
    /// The message doesn't borrow from the error.
    ///
    /// ```
    /// let message = navyspindle::LitInt::parse("10k").unwrap().value::<u8>().unwrap_err().message();
    /// assert_eq!(message.to_string(), "suffix that isn't u8");
    /// ```
    #[inline]
    #[must_use]
    pub fn message(&self) -> impl fmt::Display {
        Reason(self.kind, self.wanted)
    }
}

impl fmt::Display for ValueError {
    fn fmt(&self, f: &mut fmt::Formatter<'_>) -> fmt::Result {
        write!(f, "{} at byte {}", self.message(), self.range.start)
    }
}

impl core::error::Error for ValueError {}

/// The message without the byte offset, for an error of this kind and the requested type.
struct Reason(ValueErrorKind, NumberType);

impl fmt::Display for Reason {
    fn fmt(&self, f: &mut fmt::Formatter<'_>) -> fmt::Result {
        let wanted = self.1;
        match self.0 {
            ValueErrorKind::Suffix => write!(f, "suffix that isn't {wanted}"),
            ValueErrorKind::Form if wanted.is_float() => {
                write!(f, "integer where {wanted} is wanted")
            }
            ValueErrorKind::Form => write!(f, "float where {wanted} is wanted"),
            ValueErrorKind::Minus => write!(f, "minus before a number of {wanted}"),
            ValueErrorKind::OutOfRange => write!(f, "number out of range for {wanted}"),
        }
    }
}

/// Parses the decimal digits of a literal as a number of the float type `N`. Returns `None` if it is out of range.
fn number_of<N: Number>(digits: &str) -> Option<N> {
    digits.parse().ok().filter(N::is_number)
}

/// Creates the error of a value that was requested as the type `N`.
fn error_of<N: Number>((kind, range): (ValueErrorKind, Range<usize>)) -> ValueError {
    let wanted = N::TYPE;
    ValueError {
        kind,
        wanted,
        range,
    }
}

impl LitInt<'_> {
    /// Returns the literal's value as a number of type `N`, if Rust accepts the literal for this type.
    ///
    /// The suffix must be the type's name. Without a suffix, the type must be an integer type. The number must be in the type's
    /// range. The literal may have one minus if the type has negative numbers.
    ///
    /// # Errors
    ///
    /// Returns an error if the literal breaks one of these rules. The error has the broken rule and the range of the wrong part.
    ///
    /// ```
    /// use navyspindle::LitInt;
    ///
    /// assert_eq!(LitInt::parse("0xFF_u8")?.value::<u8>(), Ok(255));
    /// assert_eq!(LitInt::parse("-128")?.value::<i8>(), Ok(-128));
    /// assert_eq!(LitInt::parse("1f32")?.value::<f32>(), Ok(1.0));
    /// // The suffix is `XFF`: no hexadecimal number.
    /// assert!(LitInt::parse("0XFF")?.value::<u8>().is_err());
    /// assert!(LitInt::parse("300")?.value::<u8>().is_err());
    /// # Ok::<(), navyspindle::ParseError>(())
    /// ```
    pub fn value<N: Number>(&self) -> Result<N, ValueError> {
        let suffix_at = self.suffix_range().start;
        if let Some(value) = N::integer_value(self.text(), suffix_at, self.magnitude()) {
            return value.map_err(|flaw| {
                error_of::<N>(match flaw {
                    ValueFlaw::Suffix => (ValueErrorKind::Suffix, self.suffix_range()),
                    ValueFlaw::Minus => (ValueErrorKind::Minus, 0..1),
                    ValueFlaw::OutOfRange => (ValueErrorKind::OutOfRange, 0..suffix_at),
                })
            });
        }
        let suffix = self.suffix();
        let found = if suffix.is_empty() {
            Err((ValueErrorKind::Form, 0..suffix_at))
        } else if suffix != N::TYPE.as_str() || self.base() != Base::Decimal {
            Err((ValueErrorKind::Suffix, self.suffix_range()))
        } else {
            let number = number_of(&self.base10_digits());
            number.ok_or((ValueErrorKind::OutOfRange, 0..suffix_at))
        };
        found.map_err(error_of::<N>)
    }
}

#[cfg(any(feature = "settings", feature = "proc-macro"))]
impl LitInt<'_> {
    /// Returns the value, as [`LitInt::value`] does. If `N` is a float type, an integer without a suffix is accepted too.
    #[inline]
    pub(crate) fn value_or_float<N: Number>(&self) -> Result<N, ValueError> {
        if N::TYPE.is_float() && self.suffix().is_empty() {
            let error = (ValueErrorKind::OutOfRange, 0..self.suffix_range().start);
            return number_of(&self.base10_digits()).ok_or_else(|| error_of::<N>(error));
        }
        self.value()
    }
}

impl LitFloat<'_> {
    /// Returns the literal's value as a number of the float type `N`, if Rust accepts the literal for this type.
    ///
    /// The suffix must be the type's name, or there is no suffix. The number must not round to infinity. The literal may have one
    /// minus.
    ///
    /// # Errors
    ///
    /// Returns an error if the literal breaks one of these rules, or if `N` is an integer type. The error has the broken rule and
    /// the range of the wrong part.
    ///
    /// ```
    /// use navyspindle::LitFloat;
    ///
    /// assert_eq!(LitFloat::parse("-1_0.5E+3f64")?.value::<f64>(), Ok(-10500.0));
    /// assert!(LitFloat::parse("1.0u8")?.value::<f64>().is_err());
    /// assert!(LitFloat::parse("1e39")?.value::<f32>().is_err());
    /// # Ok::<(), navyspindle::ParseError>(())
    /// ```
    pub fn value<N: Number>(&self) -> Result<N, ValueError> {
        let suffix = self.suffix();
        let suffix_at = self.suffix_range().start;
        let found = if !N::TYPE.is_float() {
            Err((ValueErrorKind::Form, 0..suffix_at))
        } else if !suffix.is_empty() && suffix != N::TYPE.as_str() {
            Err((ValueErrorKind::Suffix, self.suffix_range()))
        } else {
            // std also reads `+` and `E`, so only a number with underscores is written again.
            number_of(&self.text()[..self.number_len])
                .or_else(|| number_of(&self.base10_digits()))
                .ok_or((ValueErrorKind::OutOfRange, 0..suffix_at))
        };
        found.map_err(error_of::<N>)
    }
}
