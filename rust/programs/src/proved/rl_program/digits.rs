// Rendered from crates/rl_program/src/digits.rt by tools/render, which erases contracts: change that file, and render again.
//! Decodes pairs of hexadecimal digits to bytes.

use crate::rattle_std::prelude::{Vec};
use crate::rattle_std::alloc::{AllocError, Allocator};

fn digit(byte: u8) -> Option<u32> {
    char::from(byte).to_digit(16)
}

fn byte_of(high: u8, low: u8) -> Option<u8> {
    let high = digit(high)?;
    let low = digit(low)?;
    u8::try_from(16 * high + low).ok()
}

fn split_pair(bytes: &[u8]) -> Option<(u8, u8, &[u8])> {
    let (first, rest) = bytes.split_first()?;
    let (second, rest) = rest.split_first()?;
    Some((*first, *second, rest))
}

pub fn decode_hex<A: Allocator>(alloc: A, digits: &[u8]) -> Result<Option<Vec<u8, A>>, AllocError> {
    let mut bytes = Vec::new(alloc);
    let mut rest = digits;
    while let Some((high, low, following)) = split_pair(rest) {
        let Some(byte) = byte_of(high, low) else {
            return Ok(None);
        };
        bytes.push(byte)?;
        rest = following;
    }
    if rest.is_empty() {
        Ok(Some(bytes))
    } else {
        Ok(None)
    }
}
