// Rendered from crates/rl_style/src/numbers.rt by tools/render, which erases contracts: change that file, and render again.
//! Rewrites integers and floats by a style.

use crate::rl_style::characters::{Manner, begins_base_letter, put_numeral};
use crate::rl_style::groups::{group_size, put_digit_run};
use crate::rl_style::mistyped::{contains_either, is_mistyped, is_mistyped_float};
use crate::rl_style::style::{Separator, Style};
use crate::rl_lenient::number_forms::split_radix;
use crate::rl_strict::Number;
use crate::rl_syntax::classes::{CharClass, skip_class};
use crate::rl_syntax::slice_writer::{put_byte, put_text};
use crate::rl_syntax::text::{after_prefix, before, split_char};

#[inline]
fn drops_underscores(style: Style, suffix: &str) -> bool {
    style.underscores && !begins_base_letter(suffix)
}

#[inline]
pub(crate) fn skip_padding(text: &str) -> &str {
    let mut rest = text;
    while let Some(('0' | '_', after)) = split_char(rest) {
        rest = after;
    }
    rest
}

#[inline]
fn significant(digits: &str) -> &str {
    let rest = skip_padding(digits);
    match split_char(rest) {
        Some(_) => rest,
        None => "0",
    }
}

#[inline]
fn drops_zeros(style: Style, base: u32, suffix: &str) -> bool {
    style.leading_zeros && base == 10 && !begins_base_letter(suffix)
}

#[inline]
fn kept_digits<'t>(style: Style, base: u32, suffix: &str, run: &'t str) -> &'t str {
    if drops_zeros(style, base, suffix) && contains_either(run, '8', '9') {
        significant(run)
    } else {
        run
    }
}

#[inline]
fn trimmed(text: &str) -> &str {
    let mut rest = text;
    let mut tail = text;
    while let Some((c, after)) = split_char(rest) {
        if c != '_' {
            tail = after;
        }
        rest = after;
    }
    before(text, tail)
}

#[inline]
fn trims(style: Style, suffix: &str) -> bool {
    match style.suffix_separator {
        None => false,
        Some(Separator::Nothing) => !begins_base_letter(suffix),
        Some(Separator::Underscore) => true,
    }
}

#[inline]
fn kept_run<'t>(style: Style, suffix: &str, numeral: &'t str) -> &'t str {
    if trims(style, suffix) {
        trimmed(numeral)
    } else {
        numeral
    }
}

#[inline]
fn is_separated(style: Style, suffix: &str) -> bool {
    match style.suffix_separator {
        Some(Separator::Underscore) => split_char(suffix).is_some(),
        _ => false,
    }
}

#[inline]
fn put_suffix(out: &mut [u8], at: usize, style: Style, suffix: &str) -> usize {
    if is_separated(style, suffix) {
        let end = put_byte(out, at, b'_');
        return put_text(out, end, suffix);
    }
    put_text(out, at, suffix)
}

#[inline]
fn number_style(style: Style, base: u32, suffix: &str) -> Manner {
    Manner {
        style,
        drops: drops_underscores(style, suffix),
        hex: base == 16,
        size: group_size(style, base, suffix),
    }
}

#[inline]
fn write_integer(text: &str, suffix: &str, style: Style, out: &mut [u8]) -> usize {
    if is_mistyped(suffix, text) {
        return put_text(out, 0, text);
    }
    let (base, digits) = split_radix(text);
    let whole = kept_run(style, suffix, before(digits, suffix));
    let run = kept_digits(style, base, suffix, whole);
    let at = put_text(out, 0, before(text, digits));
    let at = put_digit_run(out, at, number_style(style, base, suffix), false, run);
    put_suffix(out, at, style, suffix)
}

#[inline]
fn put_zero(out: &mut [u8], at: usize, style: Style) -> usize {
    if style.float_zero {
        return put_byte(out, at, b'0');
    }
    at
}

#[inline]
fn put_after_dot(out: &mut [u8], at: usize, manner: Manner, fraction: &str) -> usize {
    match split_char(fraction) {
        Some(_) => {
            let exponent = skip_class(CharClass::Numeral, fraction);
            let at = put_digit_run(out, at, manner, true, before(fraction, exponent));
            put_numeral(out, at, manner, exponent)
        }
        None => put_zero(out, at, manner.style),
    }
}

#[inline]
fn put_fraction(out: &mut [u8], at: usize, manner: Manner, rest: &str) -> usize {
    match after_prefix(".", rest) {
        Some(fraction) => {
            let at = put_byte(out, at, b'.');
            put_after_dot(out, at, manner, fraction)
        }
        None => put_numeral(out, at, manner, rest),
    }
}

#[inline]
fn write_float(text: &str, suffix: &str, style: Style, out: &mut [u8]) -> usize {
    if is_mistyped_float(suffix, text) {
        return put_text(out, 0, text);
    }
    let manner = number_style(style, 10, suffix);
    let numeral = kept_run(style, suffix, before(text, suffix));
    let rest = skip_class(CharClass::Numeral, numeral);
    let at = put_digit_run(out, 0, manner, false, before(numeral, rest));
    let at = put_fraction(out, at, manner, rest);
    put_suffix(out, at, style, suffix)
}

#[inline]
pub(crate) fn write_number(text: &str, number: Number<'_>, style: Style, out: &mut [u8]) -> usize {
    match number {
        Number::Integer(_, suffix) => write_integer(text, suffix, style, out),
        Number::Float(suffix) => write_float(text, suffix, style, out),
    }
}
