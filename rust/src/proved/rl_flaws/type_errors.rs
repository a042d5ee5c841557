// Rendered from crates/rl_flaws/src/type_errors.rt by tools/render, which erases contracts: change that file, and render again.
//! Checks whether Rust has a type for a literal: its suffix, and its range.

use crate::rl_flaws::float_range::is_infinite;
use crate::rl_flaws::number_types::{NumberType, max_integer, type_named};
use crate::rl_lenient::Found;
use crate::rl_syntax::Kind;
use crate::rl_syntax::text::{before, begins};

/// The reason why Rust has no type for a literal.
#[derive(Clone, Copy, PartialEq, Eq, Debug)]
#[non_exhaustive]
pub enum TypeError {
    /// A string, a character or a byte has a suffix. Rust allows suffixes only for numbers.
    QuotedSuffix,
    /// The suffix of a number isn't the name of a number type.
    UnknownSuffix,
    /// The suffix of a float is the name of an integer type.
    FloatSuffix,
    /// A binary, octal or hexadecimal integer has a suffix that begins with `f`, as a float's suffix does.
    BasedFloat,
    /// The integer is out of its type's range, or the float rounds to infinity.
    OutOfRange,
}

impl TypeError {
    /// Returns the error message, for example `unknown suffix`.
    #[inline]
    pub fn message(self) -> &'static str {
        match self {
            TypeError::QuotedSuffix => "only numbers have suffixes",
            TypeError::UnknownSuffix => "unknown suffix",
            TypeError::FloatSuffix => "a float's suffix is f32 or f64",
            TypeError::BasedFloat => "a float must be decimal",
            TypeError::OutOfRange => "out of its type's range",
        }
    }

    /// Returns the identifier of the error, for example `unknown-suffix`. It never changes.
    #[inline]
    pub fn id(self) -> &'static str {
        match self {
            TypeError::QuotedSuffix => "quoted-suffix",
            TypeError::UnknownSuffix => "unknown-suffix",
            TypeError::FloatSuffix => "float-suffix",
            TypeError::BasedFloat => "based-float",
            TypeError::OutOfRange => "out-of-range",
        }
    }
}

#[inline]
fn is_of_base(text: &str) -> bool {
    begins(text, "0b") || begins(text, "0o") || begins(text, "0x")
}

#[inline]
fn begins_float(suffix: &str) -> bool {
    matches!(suffix.as_bytes(), [b'f', ..])
}

const F32_INFINITE: u128 = 0xFFFF_FF80_0000_0000_0000_0000_0000_0000;

#[inline]
fn infinite_error(ty: NumberType, magnitude: u128, negated: bool) -> Option<TypeError> {
    match ty {
        NumberType::F32 => {
            if magnitude >= F32_INFINITE {
                return Some(TypeError::OutOfRange);
            }
            None
        }
        _ => None,
    }
}

#[inline]
fn range_error(ty: NumberType, magnitude: u128, negated: bool) -> Option<TypeError> {
    match max_integer(ty, negated) {
        Some(most) if magnitude > most => Some(TypeError::OutOfRange),
        Some(_) => None,
        None => infinite_error(ty, magnitude, negated),
    }
}

#[inline]
fn integer_error(text: &str, suffix: &str, magnitude: u128, negated: bool) -> Option<TypeError> {
    if is_of_base(text) && begins_float(suffix) {
        return Some(TypeError::BasedFloat);
    }
    match type_named(suffix) {
        Some(ty) => range_error(ty, magnitude, negated),
        None => Some(TypeError::UnknownSuffix),
    }
}

#[inline]
fn type_of_float(suffix: &str) -> Option<NumberType> {
    if suffix.is_empty() {
        return Some(NumberType::F64);
    }
    type_named(suffix)
}

#[inline]
fn decimal_error(
    ty: NumberType,
    text: &str,
    numeral: &str,
    suffix: &str,
    negated: bool,
) -> Option<TypeError> {
    if is_infinite(ty, numeral) {
        return Some(TypeError::OutOfRange);
    }
    None
}

#[inline]
fn float_error(text: &str, numeral: &str, suffix: &str, negated: bool) -> Option<TypeError> {
    let Some(ty) = type_of_float(suffix) else {
        return Some(TypeError::UnknownSuffix);
    };
    match max_integer(ty, negated) {
        Some(_) => Some(TypeError::FloatSuffix),
        None => decimal_error(ty, text, numeral, suffix, negated),
    }
}

#[inline]
pub fn type_error_of(
    kind: Kind,
    text: &str,
    magnitude: u128,
    suffix: &str,
    negated: bool,
) -> Option<TypeError> {
    if matches!(kind, Kind::Float) {
        return float_error(text, before(text, suffix), suffix, negated);
    }
    if suffix.is_empty() {
        return None;
    }
    match kind {
        Kind::Int => integer_error(text, suffix, magnitude, negated),
        Kind::Bool => None,
        _ => Some(TypeError::QuotedSuffix),
    }
}

#[inline]
pub fn type_error(text: &str, found: &Found, negated: bool) -> Option<TypeError> {
    type_error_of(
        found.kind,
        text,
        found.magnitude,
        found.suffix_in(text),
        negated,
    )
}
