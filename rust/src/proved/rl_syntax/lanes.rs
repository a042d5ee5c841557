// Rendered from crates/rl_syntax/src/lanes.rt by tools/render, which erases contracts: change that file, and render again.
//! Searches in bytes, sixteen at a time: for the end of a sequence of identifier characters or white space, for the
//! next byte that may begin a literal, and for a line feed.

use crate::rl_syntax::scan::{Marks, stop_by_eight};
use crate::simd::wide::*;

const LANES: usize = 16;

#[cfg_attr(debug_assertions, inline)]
#[cfg_attr(not(debug_assertions), inline(always))]
fn ends_among<const WORD: bool>(bytes: &[u8], at: usize) -> u64 {
    let lanes = u8x16::from_slice(&bytes[at..]);
    if WORD {
        let letters = (lanes | u8x16::splat(32)) - u8x16::splat(b'a');
        let digits = lanes - u8x16::splat(b'0');
        let no_letters = letters.simd_ge(u8x16::splat(26));
        let no_digits = digits.simd_ge(u8x16::splat(10));
        let no_underscores = lanes.simd_ne(u8x16::splat(b'_'));
        (no_letters & no_digits & no_underscores).to_bitmask()
    } else {
        let controls = lanes - u8x16::splat(9);
        let no_controls = controls.simd_ge(u8x16::splat(5));
        let no_spaces = lanes.simd_ne(u8x16::splat(b' '));
        (no_controls & no_spaces).to_bitmask()
    }
}

#[inline(always)]
pub fn is_ascii_id_continue(byte: u8) -> bool {
    byte.is_ascii_alphanumeric() || byte == b'_'
}

#[inline(always)]
fn is_run_byte<const WORD: bool>(byte: u8) -> bool {
    if WORD {
        is_ascii_id_continue(byte)
    } else {
        byte == b' ' || 8 < byte && byte < 14
    }
}

#[inline(never)]
fn run_end_by_byte<const WORD: bool>(bytes: &[u8], from: usize) -> usize {
    let mut at = from;
    while at < bytes.len() && is_run_byte::<WORD>(bytes[at]) {
        at += 1;
    }
    at
}

#[inline(never)]
fn run_end<const WORD: bool>(bytes: &[u8], from: usize) -> usize {
    let mut at = from;
    while bytes.len() - at >= LANES {
        let found = ends_among::<WORD>(bytes, at);
        if found != 0 {
            return at + found.trailing_zeros() as usize;
        }
        at += LANES;
    }
    run_end_by_byte::<WORD>(bytes, at)
}

#[inline]
pub(crate) fn run_len<const WORD: bool>(bytes: &[u8]) -> usize {
    if bytes.len() >= LANES {
        let found = ends_among::<WORD>(bytes, 0);
        if found != 0 {
            return found.trailing_zeros() as usize;
        }
    }
    run_end::<WORD>(bytes, 0)
}

#[inline(always)]
fn is_likely(byte: u8) -> bool {
    if byte < 64 {
        has_bit(0x03ff_8084_0000_0000, byte)
    } else if byte < 128 {
        has_bit(0x0014_004c_0000_0000, byte - 64)
    } else {
        true
    }
}

#[inline(always)]
pub fn has_bit(bits: u64, place: u8) -> bool {
    (bits >> place) & 1 == 1
}

#[cfg_attr(debug_assertions, inline)]
#[cfg_attr(not(debug_assertions), inline(always))]
fn likely_among(bytes: &[u8], at: usize) -> u64 {
    let near = &bytes[at - 1..at + LANES + 1];
    let before = u8x16::from_slice(near);
    let lanes = u8x16::from_slice(&near[1..]);
    let next = u8x16::from_slice(&near[2..]);
    let quotes = next.simd_eq(u8x16::splat(b'"'));
    let letters = next.simd_eq(u8x16::splat(b'r'));
    let words = lanes.simd_eq(u8x16::splat(b't')) & letters
        | lanes.simd_eq(u8x16::splat(b'f')) & next.simd_eq(u8x16::splat(b'a'));
    let raw = lanes.simd_eq(u8x16::splat(b'r')) & (quotes | next.simd_eq(u8x16::splat(b'#')));
    let c_strings = lanes.simd_eq(u8x16::splat(b'c')) & (quotes | letters);
    let bytes = lanes.simd_eq(u8x16::splat(b'b'))
        & (quotes | letters | next.simd_eq(u8x16::splat(b'\'')));
    let digits = u8x16::splat(9).simd_ge(lanes - u8x16::splat(b'0'));
    let no_letters = ((before | u8x16::splat(32)) - u8x16::splat(b'a')).simd_ge(u8x16::splat(26));
    let no_digits = (before - u8x16::splat(b'0')).simd_ge(u8x16::splat(10));
    let no_words = no_letters & no_digits & before.simd_ne(u8x16::splat(b'_'));
    let marks = lanes.simd_eq(u8x16::splat(b'"'))
        | lanes.simd_eq(u8x16::splat(b'\''))
        | lanes.simd_eq(u8x16::splat(b'/'))
        | lanes.simd_ge(u8x16::splat(128));
    (marks | no_words & (digits | bytes | c_strings | raw | words)).to_bitmask()
}

#[inline(never)]
pub fn literal_free_prefix_len(bytes: &[u8]) -> usize {
    if bytes.is_empty() || is_likely(bytes[0]) {
        return 0;
    }
    let mut at = 1;
    while bytes.len() - at > LANES {
        let found = likely_among(bytes, at);
        if found != 0 {
            return at + found.trailing_zeros() as usize;
        }
        at += LANES;
    }
    at
}

#[inline(always)]
fn line_ends_among(bytes: &[u8], at: usize) -> u64 {
    u8x16::from_slice(&bytes[at..])
        .simd_eq(u8x16::splat(b'\n'))
        .to_bitmask()
}

#[inline(never)]
pub fn line_len(bytes: &[u8]) -> usize {
    let mut at = 0;
    while bytes.len() - at >= LANES {
        let found = line_ends_among(bytes, at);
        if found != 0 {
            return at + found.trailing_zeros() as usize;
        }
        at += LANES;
    }
    stop_by_eight::<false>(Marks::from_two_bytes(b'\n', b'\n'), bytes, at)
}

#[inline(always)]
pub fn byte_at(bytes: &[u8], at: usize) -> u8 {
    if at < bytes.len() { bytes[at] } else { 0 }
}

#[inline(always)]
pub fn byte_before(bytes: &[u8], at: usize) -> u8 {
    if at == 0 { 0 } else { bytes[at - 1] }
}
