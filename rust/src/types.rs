//! The check whether Rust has a type for a literal.

use crate::lit::Lit;
use crate::numbers::NumberType;
use crate::rl_flaws::{self, TypeError};
use crate::rl_lenient::digit_runs::{after_minus, is_negative};
use crate::rl_lenient::parse_literal;
use core::fmt;
use core::hash::{Hash, Hasher};
use core::mem::discriminant;

/// Prints the error's message.
impl fmt::Display for TypeError {
    fn fmt(&self, f: &mut fmt::Formatter<'_>) -> fmt::Result {
        f.pad(self.message())
    }
}

impl core::error::Error for TypeError {}

impl Hash for TypeError {
    fn hash<H: Hasher>(&self, state: &mut H) {
        discriminant(self).hash(state);
    }
}

impl Lit<'_> {
    /// Returns the reason why the literal has no type in Rust, such as an unknown suffix or a number out of its type's range.
    ///
    /// rustc reports this error for a literal in an expression, but not for a literal that a macro receives. The result is `None`
    /// if the literal has a type. It is also `None` for an integer without a suffix, whose type Rust infers, and for a
    /// [`Lit::Verbatim`], which has no value. A float that rounds to infinity is out of range. Without a suffix the range is that
    /// of `f64`. `usize` and `isize` have 64 bits.
    ///
    /// A minus in the literal's own text counts: `-128i8` has a type, `128i8` doesn't. A number of an unsigned type with a minus, such
    /// as `-1u8`, is out of range. Literals of [`source`](fn@crate::source) never have a minus in their text. Call
    /// [`Lit::type_error_negated`] if a minus is before the literal in the source.
    ///
    /// ```
    /// use navyspindle::{Lit, TypeError};
    ///
    /// let error = |text| Lit::of_text(text).type_error();
    /// assert_eq!(error("1u9"), Some(TypeError::UnknownSuffix));
    /// assert_eq!(error("\"a\"q"), Some(TypeError::QuotedSuffix));
    /// assert_eq!(error("128i8"), Some(TypeError::OutOfRange));
    /// assert_eq!((error("-128i8"), error("-1u8")), (None, Some(TypeError::OutOfRange)));
    /// assert_eq!(error("256"), None);
    /// assert_eq!(error("1e400"), Some(TypeError::OutOfRange));
    /// ```
    #[inline]
    #[must_use]
    pub fn type_error(&self) -> Option<TypeError> {
        let is_negative = is_negative(self.text());
        let is_unsigned = match self {
            Lit::Int(literal) => literal.type_suffix().is_some_and(NumberType::is_unsigned),
            _ => false,
        };
        let error = type_error_of(after_minus(self.text()), is_negative);
        error.or((is_negative && is_unsigned).then_some(TypeError::OutOfRange))
    }

    /// Returns the result of [`Lit::type_error`] for a literal with a minus before it in the source. The minus may be a binary one, so
    /// a number of an unsigned type is in range.
    ///
    /// ```
    /// use navyspindle::{source, TypeError};
    ///
    /// let (range, literal) = source("f(-128i8)").next().unwrap()?;
    /// assert_eq!((range, literal.type_error()), (3..8, Some(TypeError::OutOfRange)));
    /// assert_eq!(literal.type_error_negated(), None);
    /// # Ok::<(), navyspindle::ListError>(())
    /// ```
    #[inline]
    #[must_use]
    pub fn type_error_negated(&self) -> Option<TypeError> {
        type_error_of(after_minus(self.text()), true)
    }
}

/// Returns the reason why the literal `body`, which has no minus in its text, has no type. `is_negated` says that a minus is before
/// it.
#[inline]
fn type_error_of(body: &str, is_negated: bool) -> Option<TypeError> {
    rl_flaws::type_error(body, &parse_literal(body)?, is_negated)
}
