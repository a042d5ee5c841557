// Rendered from crates/rl_lenient/src/digits.rt by tools/render, which erases contracts: change that file, and render again.
//! Tests of whether a number's body already is its digits, and a function that writes a float's digits into a slice of
//! the caller's.

use crate::rl_lenient::digit_runs::after_minus;
use crate::rl_syntax::scan::{Marks, split_after_mark};
use crate::rl_syntax::slice_writer::{put_byte, put_char};
use crate::rl_syntax::text::split_char;

const CHANGED: Marks = Marks {
    first: b'_',
    second: b'+',
    third: b'E',
    fourth: b'E',
};

fn are_digits(bytes: &[u8]) -> bool {
    bytes.iter().all(u8::is_ascii_digit)
}

fn all_digits(text: &str) -> bool {
    are_digits(text.as_bytes())
}

fn is_plain_digits(text: &str) -> bool {
    match split_char(text) {
        Some((first, rest)) => (first != '0' || rest.is_empty()) && all_digits(text),
        None => false,
    }
}

pub fn is_plain_integer(body: &str) -> bool {
    is_plain_digits(after_minus(body))
}

pub(crate) fn is_plain_float(numeral: &str) -> bool {
    match split_after_mark(CHANGED, numeral) {
        Some(_) => false,
        None => true,
    }
}

#[inline(always)]
fn put_digit(out: &mut [u8], at: usize, c: char) -> usize {
    match c {
        '_' | '+' => at,
        'E' => put_byte(out, at, b'e'),
        _ if c.is_ascii() => put_byte(out, at, c as u8),
        _ => put_char(out, at, c),
    }
}

pub fn float_digits_into(numeral: &str, out: &mut [u8]) -> usize {
    let mut at = 0;
    let mut rest = numeral;
    while let Some((c, after)) = split_char(rest) {
        at = put_digit(out, at, c);
        rest = after;
    }
    at
}
