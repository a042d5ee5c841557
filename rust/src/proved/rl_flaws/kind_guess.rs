// Rendered from crates/rl_flaws/src/kind_guess.rt by tools/render, which erases contracts: change that file, and render again.
//! Guesses the kind of a possibly invalid literal from its beginning.

use crate::rl_flaws::walks::split_opening_delimiter;
use crate::rl_lenient::bool_of;
use crate::rl_lenient::digit_runs::{after_minus, begins_digit, skip_digits};
use crate::rl_lenient::number_forms::split_radix;
use crate::rl_strict::read_numbers::begins_float;
use crate::rl_syntax::Kind;

#[inline]
fn number_kind(digits: &str) -> Kind {
    let (radix, run) = split_radix(digits);
    if radix != 10 {
        return Kind::Int;
    }
    if begins_float(skip_digits(run).rest) {
        Kind::Float
    } else {
        Kind::Int
    }
}

#[inline]
fn front_kind(text: &str) -> Option<Kind> {
    if let Some((opened, _)) = split_opening_delimiter(text) {
        return Some(opened.kind);
    }
    let digits = after_minus(text);
    if begins_digit(digits) {
        return Some(number_kind(digits));
    }
    match bool_of(text) {
        Some(_) => Some(Kind::Bool),
        None => None,
    }
}

#[inline]
pub fn guess_kind(text: &str) -> Option<Kind> {
    front_kind(text)
}
