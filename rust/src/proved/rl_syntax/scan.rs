// Rendered from crates/rl_syntax/src/scan.rt by tools/render, which erases contracts: change that file, and render again.
//! Searches for the next delimiter in bytes: the first byte that is one of up to four given bytes. Eight, sixteen or
//! sixty-four bytes are tested at once.

use crate::rl_syntax::text::split_ascii;
use crate::simd::*;

#[derive(Clone, Copy)]
pub struct Marks {
    pub first: u8,
    pub second: u8,
    pub third: u8,
    pub fourth: u8,
}

impl Marks {
    #[inline(always)]
    pub fn from_two_bytes(first: u8, second: u8) -> Marks {
        Marks {
            first,
            second,
            third: second,
            fourth: second,
        }
    }
}

#[cfg_attr(debug_assertions, inline)]
#[cfg_attr(not(debug_assertions), inline(always))]
fn stops_among<const HIGH: bool, const N: usize>(marks: Marks, bytes: &[u8], at: usize) -> u64 {
    let lanes = Simd::<u8, N>::from_slice(&bytes[at..]);
    let first = lanes.simd_eq(Simd::splat(marks.first));
    let second = lanes.simd_eq(Simd::splat(marks.second));
    let third = lanes.simd_eq(Simd::splat(marks.third));
    let fourth = lanes.simd_eq(Simd::splat(marks.fourth));
    let among = first | second | third | fourth;
    if HIGH {
        (lanes.simd_ge(Simd::splat(128)) | among).to_bitmask()
    } else {
        among.to_bitmask()
    }
}

#[inline(always)]
fn is_stop<const HIGH: bool>(marks: Marks, byte: u8) -> bool {
    let is_mark = byte == marks.first
        || byte == marks.second
        || byte == marks.third
        || byte == marks.fourth;
    HIGH && byte >= 128 || is_mark
}

fn stop_by_byte<const HIGH: bool>(marks: Marks, bytes: &[u8], from: usize) -> usize {
    let mut at = from;
    while at < bytes.len() && !is_stop::<HIGH>(marks, bytes[at]) {
        at += 1;
    }
    at
}

#[inline]
fn stop_by<const HIGH: bool, const N: usize>(
    marks: Marks,
    bytes: &[u8],
    from: usize,
) -> Result<usize, usize> {
    let mut at = from;
    while bytes.len() - at >= N {
        let found = stops_among::<HIGH, N>(marks, bytes, at);
        if found != 0 {
            return Ok(at + found.trailing_zeros() as usize);
        }
        at += N;
    }
    Err(at)
}

#[inline(always)]
pub(crate) fn stop_by_eight<const HIGH: bool>(marks: Marks, bytes: &[u8], from: usize) -> usize {
    match stop_by::<HIGH, 8>(marks, bytes, from) {
        Ok(at) => at,
        Err(from) => stop_by_byte::<HIGH>(marks, bytes, from),
    }
}

#[inline(always)]
fn stop_by_sixteen<const HIGH: bool>(marks: Marks, bytes: &[u8], from: usize) -> usize {
    match stop_by::<HIGH, 16>(marks, bytes, from) {
        Ok(at) => at,
        Err(from) => stop_by_eight::<HIGH>(marks, bytes, from),
    }
}

#[inline(never)]
fn stop_by_sixty_four<const HIGH: bool>(marks: Marks, bytes: &[u8]) -> usize {
    match stop_by::<HIGH, 64>(marks, bytes, 0) {
        Ok(at) => at,
        Err(from) => stop_by_sixteen::<HIGH>(marks, bytes, from),
    }
}

const UNOPTIMIZED: bool = cfg!(debug_assertions);

#[inline(always)]
fn stop<const BY_BYTE: bool, const HIGH: bool>(marks: Marks, bytes: &[u8]) -> usize {
    if BY_BYTE {
        return stop_by_byte::<HIGH>(marks, bytes, 0);
    }
    if bytes.len() < 16 {
        return stop_by_eight::<HIGH>(marks, bytes, 0);
    }
    stop_by_sixty_four::<HIGH>(marks, bytes)
}

#[inline(always)]
pub fn len_before_mark(marks: Marks, bytes: &[u8]) -> usize {
    stop::<UNOPTIMIZED, false>(marks, bytes)
}

#[inline(always)]
pub fn len_before_near_mark(marks: Marks, bytes: &[u8]) -> usize {
    stop_by_sixteen::<false>(marks, bytes, 0)
}

#[inline(always)]
pub fn ascii_len_before_mark(marks: Marks, bytes: &[u8]) -> usize {
    stop::<UNOPTIMIZED, true>(marks, bytes)
}

#[inline(always)]
pub fn split_before_mark(marks: Marks, text: &str) -> (&str, &str) {
    crate::slices::split_at!(text, len_before_near_mark(marks, text.as_bytes()))
}

#[inline(always)]
pub fn split_after_mark(marks: Marks, text: &str) -> Option<(u8, &str)> {
    let (_, from) = split_before_mark(marks, text);
    split_ascii(from)
}
