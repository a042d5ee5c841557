// Rendered from crates/rl_lenient/src/number_forms.rt by tools/render, which erases contracts: change that file, and render again.
//! Functions that parse numbers: integers with their base, floats, and texts that may be either, where an integer takes
//! precedence.

use crate::rl_lenient::digit_runs::{
    DigitRun, after_minus, begins_digit, is_exponent_suffix, is_suffix, read_digit_run, skip_digits,
};
#[cfg(feature = "__rendered")]
use crate::rl_lenient::found::{
    Parts, parse_float_literal, parse_int_literal, parse_unsigned_literal,
};
use crate::rl_syntax::classes::{CharClass, skip_class};
use crate::rl_syntax::text::{split_ascii, split_char};

#[cfg_attr(debug_assertions, inline)]
#[cfg_attr(not(debug_assertions), inline(always))]
pub fn split_radix(text: &str) -> (u32, &str) {
    if let Some((b'0', letter)) = split_ascii(text) {
        match split_ascii(letter) {
            Some((b'b', digits)) => return (2, digits),
            Some((b'o', digits)) => return (8, digits),
            Some((b'x', digits)) => return (16, digits),
            _ => {}
        }
    }
    (10, text)
}

#[derive(Clone, Copy)]
pub struct Head<'t> {
    pub radix: u32,
    pub run: DigitRun<'t>,
}

#[inline(always)]
fn head_of(unsigned: &str) -> Head<'_> {
    let (radix, digits) = split_radix(unsigned);
    let run = read_digit_run(digits, radix);
    Head { radix, run }
}

#[inline(always)]
pub(crate) fn read_head(text: &str) -> Option<Head<'_>> {
    let unsigned = after_minus(text);
    if begins_digit(unsigned) {
        Some(head_of(unsigned))
    } else {
        None
    }
}

#[derive(Clone, Copy)]
pub struct Integer<'t> {
    pub magnitude: Option<u128>,
    pub suffix: &'t str,
}

#[cfg_attr(debug_assertions, inline)]
#[cfg_attr(not(debug_assertions), inline(always))]
pub(crate) fn integer_of(head: Head<'_>) -> Option<Integer<'_>> {
    let suffix = head.run.rest;
    let is_integer = head.run.has_digit
        && is_suffix(suffix)
        && (head.radix != 10 || !is_exponent_suffix(suffix));
    if is_integer {
        Some(Integer {
            magnitude: head.run.magnitude,
            suffix,
        })
    } else {
        None
    }
}

#[inline]
pub fn integer_magnitude_and_suffix(text: &str) -> Option<Integer<'_>> {
    match read_head(text) {
        Some(head) => integer_of(head),
        None => None,
    }
}

#[cfg(feature = "__rendered")]
#[inline]
pub fn int_shape(text: &str) -> Option<Option<Parts<'_>>> {
    match parse_int_literal(text) {
        Some(Some(found)) => Some(Some(found.parts(text))),
        Some(None) => Some(None),
        None => None,
    }
}

#[inline(always)]
fn after_fraction(text: &str) -> &str {
    match split_char(text) {
        Some(('.', digits)) => skip_digits(digits).rest,
        _ => text,
    }
}

#[inline(always)]
fn power_digits(text: &str) -> &str {
    let signed = skip_class(CharClass::Underscore, text);
    match split_char(signed) {
        Some(('+' | '-', digits)) => digits,
        _ => signed,
    }
}

#[inline(always)]
fn after_exponent(text: &str) -> &str {
    if let Some(('e' | 'E', power)) = split_char(text) {
        let run = skip_digits(power_digits(power));
        if run.has_digit {
            return run.rest;
        }
    }
    text
}

#[inline(always)]
fn tail_suffix(text: &str) -> Option<&str> {
    let suffix = after_exponent(after_fraction(text));
    if is_suffix(suffix) {
        Some(suffix)
    } else {
        None
    }
}

#[inline]
pub(crate) fn float_suffix(text: &str) -> Option<&str> {
    let whole = after_minus(text);
    if !begins_digit(whole) {
        return None;
    }
    tail_suffix(skip_digits(whole).rest)
}

#[inline(always)]
pub(crate) fn head_suffix<'t>(text: &'t str, head: Head<'t>) -> Option<&'t str> {
    if head.radix == 10 {
        tail_suffix(head.run.rest)
    } else {
        float_suffix(text)
    }
}

#[cfg(feature = "__rendered")]
#[inline]
pub fn float_shape(text: &str) -> Option<Parts<'_>> {
    let found = parse_float_literal(text)?;
    Some(found.parts(text))
}

#[derive(Clone, Copy)]
pub enum Number<'t> {
    Integer(u128, &'t str),
    Float(&'t str),
}

#[inline(always)]
pub(crate) fn read_number(text: &str) -> Option<Number<'_>> {
    let head = read_head(text)?;
    match integer_of(head) {
        Some(integer) => Some(Number::Integer(integer.magnitude?, integer.suffix)),
        None => Some(Number::Float(head_suffix(text, head)?)),
    }
}

#[cfg(feature = "__rendered")]
#[inline]
pub fn shape_negative(text: &str) -> Option<Parts<'_>> {
    let found = parse_unsigned_literal(text)?;
    Some(found.parts(text))
}
