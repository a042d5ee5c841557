// Rendered from crates/rl_flaws/src/float_range.rt by tools/render, which erases contracts: change that file, and render again.
//! Checks whether a decimal number rounds to infinity as an `f32` or `f64`.

use crate::rl_flaws::number_types::NumberType;
use crate::rl_syntax::text::{before, split_char};

const HUGE: u128 = 1 << 100;

const F32_DIGITS: &str = "340282356779733661637539395458142568448";

const F64_DIGITS: &str =
    "1797693134862315807937289714053034150799341327100378269361737789804449682927647509466\
     4901797758720709633028641669288791094655554785194040263065748867150582068190890200070\
     8383676273854845817711531764475730270069855571366959622842914819860834936475292719074\
     168444365510704342711559699508093042880177904174497792";

#[inline]
fn is_exponent_letter(c: char) -> bool {
    matches!(c, 'e' | 'E')
}

#[inline]
fn split_letter(numeral: &str) -> (&str, &str) {
    let mut rest = numeral;
    while let Some((c, after)) = split_char(rest) {
        if is_exponent_letter(c) {
            return (before(numeral, rest), after);
        }
        rest = after;
    }
    (numeral, rest)
}

#[inline]
fn after_point(text: &str) -> &str {
    let mut rest = text;
    while let Some((c, after)) = split_char(rest) {
        if c == '.' {
            return after;
        }
        rest = after;
    }
    rest
}

#[inline]
fn has_minus(text: &str) -> bool {
    let mut rest = text;
    while let Some((c, after)) = split_char(rest) {
        if c == '-' {
            return true;
        }
        rest = after;
    }
    false
}

#[inline]
fn split_digit(text: &str) -> Option<(char, &str)> {
    let mut rest = text;
    while let Some((c, after)) = split_char(rest) {
        if c.is_ascii_digit() {
            return Some((c, after));
        }
        rest = after;
    }
    None
}

#[inline]
fn skip_zeros(text: &str) -> &str {
    let mut rest = text;
    while let Some(('0', after)) = split_digit(rest) {
        rest = after;
    }
    rest
}

#[inline]
fn count_digits(text: &str) -> usize {
    let mut count = 0;
    let mut rest = text;
    while let Some((_, after)) = split_digit(rest) {
        count += 1;
        rest = after;
    }
    count
}

#[inline]
fn capped_value(text: &str) -> u128 {
    let mut value = 0;
    let mut rest = text;
    while let Some((digit, after)) = split_digit(rest) {
        if value < HUGE {
            value = 10 * value + u128::from(digit as u32 - '0' as u32);
        }
        rest = after;
    }
    value
}

#[inline]
fn digit_or_zero(text: &str) -> (char, &str) {
    match split_digit(text) {
        Some(parts) => parts,
        None => ('0', ""),
    }
}

#[inline]
fn is_not_below(digits: &str, bound: &str) -> bool {
    let mut left = digits;
    let mut rest = bound;
    while let Some((wanted, after)) = split_char(rest) {
        let (digit, more) = digit_or_zero(left);
        if digit != wanted {
            return digit > wanted;
        }
        left = more;
        rest = after;
    }
    true
}

#[inline]
fn value_if(condition: bool, value: u128) -> u128 {
    if condition { value } else { 0 }
}

#[inline]
fn reaches(bound: &str, numeral: &str) -> bool {
    let (significand, exponent) = split_letter(numeral);
    let digits = skip_zeros(significand);
    let count = count_digits(digits);
    if count == 0 {
        return false;
    }
    let places = count_digits(after_point(significand));
    let power = capped_value(exponent);
    let is_divided = has_minus(exponent);
    let ours = count as u128 + value_if(!is_divided, power);
    let least = bound.len() as u128 + places as u128 + value_if(is_divided, power);
    if ours > least {
        return true;
    }
    if ours < least {
        return false;
    }
    is_not_below(digits, bound)
}

#[inline]
pub(crate) fn is_infinite(ty: NumberType, numeral: &str) -> bool {
    match ty {
        NumberType::F32 => reaches(F32_DIGITS, numeral),
        NumberType::F64 => reaches(F64_DIGITS, numeral),
        _ => false,
    }
}
