// Rendered from crates/rl_lexer/src/lexeme/number.rt by tools/render, which erases contracts: change that file, and render again.
//! Functions that lex numbers.

use super::suffix::after_suffix;
use crate::rl_syntax::characters::is_id_start;
use crate::rl_syntax::classes::{CharClass, skip_class};
use crate::rl_syntax::text::{split_ascii, split_char, without_first_char};

#[inline(never)]
pub(crate) fn after_decimal(text: &str) -> &str {
    after_suffix(after_exponent(after_fraction(skip_class(CharClass::Numeral, text))))
}

#[inline(always)]
pub(crate) fn after_digits(text: &str) -> &str {
    let mut rest = text;
    while let Some(following) = without_digit(rest) {
        rest = following;
    }
    rest
}

#[inline(always)]
fn without_digit(text: &str) -> Option<&str> {
    match split_ascii(text) {
        Some((byte, following)) if (byte as char).is_ascii_digit() => Some(following),
        _ => None,
    }
}

#[inline(always)]
pub(crate) fn ends_number(text: &str) -> bool {
    match split_ascii(text) {
        Some((byte, _)) => !(byte == b'.' || is_id_start(byte as char)),
        None => false,
    }
}

fn after_fraction(text: &str) -> &str {
    if begins_dot(text) {
        skip_class(CharClass::Numeral, without_first_char(text))
    } else {
        text
    }
}

fn begins_dot(text: &str) -> bool {
    match split_char(text) {
        Some(('.', following)) => match split_char(following) {
            Some((next, _)) => !(next == '.' || is_id_start(next)),
            None => true,
        },
        _ => false,
    }
}

fn after_exponent(text: &str) -> &str {
    if let Some(('e' | 'E', following)) = split_char(text) {
        let digits = after_sign(following);
        if let Some((d, _)) = split_char(skip_class(CharClass::Underscore, digits)) {
            if d.is_ascii_digit() {
                return skip_class(CharClass::Numeral, digits);
            }
        }
    }
    text
}

fn after_sign(text: &str) -> &str {
    match split_char(text) {
        Some(('+' | '-', following)) => following,
        _ => text,
    }
}
