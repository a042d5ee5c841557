// Rendered from crates/rl_strict/src/read_numbers.rt by tools/render, which erases contracts: change that file, and render again.
//! Numbers of Rust's grammar, parsed in one pass. The result is the number, or the reason and the position where the text can't
//! continue as a number.

use crate::rl_strict::flaws::FlawKind;
use crate::rl_lenient::digit_runs::{DigitRun, begins_digit, read_digit_run, skip_digits};
use crate::rl_lenient::number_forms::split_radix;
use crate::rl_syntax::characters::is_id_start;
use crate::rl_syntax::classes::{CharClass, skip_class};
use crate::rl_syntax::text::{split_ascii, split_char};

#[derive(Clone, Copy)]
pub struct Stop<'t> {
    pub kind: FlawKind,
    pub rest: &'t str,
}

#[derive(Clone, Copy)]
pub enum Number<'t> {
    Integer(Option<u128>, &'t str),
    Float(&'t str),
}

#[inline(always)]
pub(crate) fn skip_suffix(text: &str) -> &str {
    match split_char(text) {
        Some((first, rest)) if is_id_start(first) => skip_class(CharClass::Continue, rest),
        _ => text,
    }
}

#[inline(always)]
fn are_suffix_bytes(bytes: &[u8]) -> bool {
    bytes
        .iter()
        .all(|byte| byte.is_ascii_alphanumeric() || *byte == b'_')
}

#[inline(always)]
fn is_ascii_word(text: &str) -> bool {
    let bytes = text.as_bytes();
    if bytes.is_empty() || !bytes[0].is_ascii_alphabetic() {
        return false;
    }
    are_suffix_bytes(bytes)
}

#[cfg_attr(debug_assertions, inline)]
#[cfg_attr(not(debug_assertions), inline(always))]
fn read_suffix(text: &str) -> Result<&str, Stop<'_>> {
    if text.is_empty() {
        return Ok(text);
    }
    if is_ascii_word(text) {
        return Ok(text);
    }
    let rest = skip_suffix(text);
    if rest.is_empty() {
        Ok(text)
    } else {
        Err(Stop {
            kind: FlawKind::BadSuffix,
            rest,
        })
    }
}

#[inline(always)]
fn after_sign(text: &str) -> &str {
    match split_ascii(text) {
        Some((b'+' | b'-', rest)) => rest,
        _ => text,
    }
}

#[cfg_attr(debug_assertions, inline)]
#[cfg_attr(not(debug_assertions), inline(always))]
fn read_power(text: &str) -> Result<&str, Stop<'_>> {
    let run = skip_digits(after_sign(text));
    if run.has_digit {
        read_suffix(run.rest)
    } else {
        Err(Stop {
            kind: FlawKind::NoExponentDigit,
            rest: run.rest,
        })
    }
}

#[inline(always)]
fn read_exponent(text: &str) -> Result<&str, Stop<'_>> {
    match split_ascii(text) {
        Some((b'e' | b'E', power)) => read_power(power),
        _ => read_suffix(text),
    }
}

#[cfg_attr(debug_assertions, inline)]
#[cfg_attr(not(debug_assertions), inline(always))]
fn read_fraction(text: &str) -> Result<&str, Stop<'_>> {
    if text.is_empty() {
        Ok(text)
    } else if begins_digit(text) {
        read_exponent(skip_digits(text).rest)
    } else {
        Err(Stop {
            kind: FlawKind::NoFractionDigit,
            rest: text,
        })
    }
}

#[inline(always)]
fn read_whole(run: DigitRun<'_>) -> Result<Number<'_>, Stop<'_>> {
    match split_ascii(run.rest) {
        Some((b'.', fraction)) => Ok(Number::Float(read_fraction(fraction)?)),
        Some((b'e' | b'E', power)) => Ok(Number::Float(read_power(power)?)),
        _ => Ok(Number::Integer(run.magnitude, read_suffix(run.rest)?)),
    }
}

pub fn begins_float(text: &str) -> bool {
    matches!(split_char(text), Some(('.' | 'e' | 'E', _)))
}

#[inline(never)]
fn read_based(radix: u32, text: &str) -> Result<Number<'_>, Stop<'_>> {
    let run = read_digit_run(text, radix);
    let rest = run.rest;
    if begins_digit(rest) {
        Err(Stop {
            kind: FlawKind::InvalidDigit,
            rest,
        })
    } else if !run.has_digit {
        Err(Stop {
            kind: FlawKind::NoDigits,
            rest,
        })
    } else if begins_float(rest) {
        Err(Stop {
            kind: FlawKind::BasedFloat,
            rest,
        })
    } else {
        Ok(Number::Integer(run.magnitude, read_suffix(rest)?))
    }
}

#[inline]
pub fn parse_number(text: &str) -> Result<Number<'_>, Stop<'_>> {
    let (radix, digits) = split_radix(text);
    if radix == 10 {
        read_whole(read_digit_run(digits, 10))
    } else {
        read_based(radix, digits)
    }
}

#[inline(always)]
pub fn parse_number_token(text: &str) -> Result<Number<'_>, Stop<'_>> {
    parse_number(text)
}
