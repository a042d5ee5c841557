// Rendered from crates/rl_strict/src/limits.rt by tools/render, which erases contracts: change that file, and render again.
//! Integers above 128 bits, which are literal tokens without a value.

use crate::rl_strict::flaws::{Flaw, FlawKind, make_flaw};
use crate::rl_strict::line_ends::LineEnds;
use crate::rl_strict::strict_reading::{Reading, flaw_with_offsets};
use crate::rl_lenient::digit_runs::{after_minus, begins_digit, skip_digits};

pub fn suffix_at_if_above_128_bits(reading: Reading) -> Option<usize> {
    match reading {
        Reading::Integer(None, suffix_at) => Some(suffix_at),
        _ => None,
    }
}

pub fn is_float_by_suffix(text: &str) -> bool {
    let number = after_minus(text);
    if begins_digit(number) {
        matches!(skip_digits(number).rest, "f32" | "f64")
    } else {
        false
    }
}

pub fn flaw_above_128_bits(text: &str, suffix_at: usize) -> Flaw {
    let found = make_flaw(FlawKind::TooLarge, &text[suffix_at..]).with_piece(text);
    flaw_with_offsets(LineEnds::Text, found, text)
}

pub fn flaw_if_above_128_bits(text: &str, reading: Reading) -> Option<Flaw> {
    match suffix_at_if_above_128_bits(reading) {
        Some(suffix_at) => {
            if is_float_by_suffix(text) {
                None
            } else {
                Some(flaw_above_128_bits(text, suffix_at))
            }
        }
        None => None,
    }
}
