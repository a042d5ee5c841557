// Rendered from crates/rl_lenient/src/values.rt by tools/render, which erases contracts: change that file, and render again.
//! Functions that return the value of an integer literal with its sign, decode a string literal, and test for a suffix.

use crate::rl_lenient::contents::decode_str_into;
use crate::rl_lenient::digit_runs::is_negative;
use crate::rl_lenient::found::Found;
use crate::rl_syntax::Kind;
use crate::rl_syntax::slice_writer::put;

const GREATEST: u128 = 0x7fff_ffff_ffff_ffff_ffff_ffff_ffff_ffff;

const LEAST: u128 = 0x8000_0000_0000_0000_0000_0000_0000_0000;

fn number(magnitude: u128, negative: bool) -> i128 {
    let number = magnitude as i128;
    if negative { 0 - number } else { number }
}

fn number_of(magnitude: u128, negative: bool) -> Option<i128> {
    if magnitude <= GREATEST {
        Some(number(magnitude, negative))
    } else if negative && magnitude == LEAST {
        Some(i128::MIN)
    } else {
        None
    }
}

pub fn number_found(found: &Found, negative: bool) -> Option<i128> {
    if found.kind != Kind::Int {
        return None;
    }
    number_of(found.magnitude, negative)
}

impl Found {
    pub fn has_suffix(&self, text: &str) -> bool {
        !self.suffix_in(text).is_empty()
    }

    pub fn decode_str_into(&self, text: &str, out: &mut [u8]) -> usize {
        let body = self.body_in(text);
        if self.body.plain {
            put(out, 0, body.as_bytes())
        } else {
            decode_str_into(body, out)
        }
    }

    pub fn signed(&self, text: &str) -> Option<i128> {
        number_found(self, is_negative(text))
    }
}
