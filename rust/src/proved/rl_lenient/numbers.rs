// Rendered from crates/rl_lenient/src/numbers.rt by tools/render, which erases contracts: change that file, and render again.
//! Functions that split the text of a number into its parts.

use crate::rl_lenient::digit_runs::{after_minus, read_digit_run, skip_digits};
use crate::rl_lenient::number_forms::split_radix;
use crate::rl_lenient::parse_literal;
use crate::rl_syntax::Kind;
use crate::rl_syntax::text::{before, split_char, strip_byte};

#[derive(Clone, Copy)]
pub struct IntegerParts<'t> {
    pub radix: u32,
    pub digits: &'t str,
}

#[derive(Clone, Copy)]
pub struct FloatParts<'t> {
    pub integer: &'t str,
    pub fraction: Option<&'t str>,
    pub exponent: Option<&'t str>,
}

#[inline]
pub fn integer_parts(text: &str) -> Option<IntegerParts<'_>> {
    let found = parse_literal(text)?;
    if !matches!(found.kind, Kind::Int) {
        return None;
    }
    let (radix, run) = split_radix(after_minus(text));
    let digits = before(run, read_digit_run(run, radix).rest);
    Some(IntegerParts { radix, digits })
}

#[inline]
fn split_digits(text: &str) -> (&str, &str) {
    let rest = skip_digits(text).rest;
    (before(text, rest), rest)
}

#[inline]
fn split_fraction(text: &str) -> (Option<&str>, &str) {
    match strip_byte(text, b'.') {
        Some(digits) => {
            let (run, rest) = split_digits(digits);
            (Some(run), rest)
        }
        None => (None, text),
    }
}

#[inline]
fn after_letter(text: &str) -> Option<&str> {
    match split_char(text) {
        Some((_, exponent)) => Some(exponent),
        None => None,
    }
}

#[inline]
pub fn float_parts(text: &str) -> Option<FloatParts<'_>> {
    let found = parse_literal(text)?;
    if !matches!(found.kind, Kind::Float) {
        return None;
    }
    let numeral = before(text, found.suffix_in(text));
    let (integer, rest) = split_digits(after_minus(numeral));
    let (fraction, power) = split_fraction(rest);
    Some(FloatParts {
        integer,
        fraction,
        exponent: after_letter(power),
    })
}
