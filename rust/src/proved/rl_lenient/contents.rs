// Rendered from crates/rl_lenient/src/contents.rt by tools/render, which erases contracts: change that file, and render again.
//! Functions that decode quoted literals into a slice of the caller's, and functions that test whether a literal's body
//! is its value, byte for byte.

#[cfg(feature = "__rendered")]
use crate::rl_lenient::found::{parse_float_literal, parse_known_literal, parse_literal};
use crate::rl_lenient::units::{Piece, parse_char_or_escape, split_plain};
#[cfg(feature = "__rendered")]
use crate::rl_lenient::units::piece_code;
use crate::rl_syntax::Kind;
use crate::rl_syntax::slice_writer::{put, put_byte, put_char};

#[inline(always)]
fn put_piece(out: &mut [u8], at: usize, piece: Piece) -> usize {
    match piece {
        Piece::Character(c) => put_char(out, at, c),
        Piece::Byte(b) => put_byte(out, at, b),
        Piece::Nothing => at,
    }
}

#[inline(always)]
fn put_run(out: &mut [u8], at: usize, run: &str) -> usize {
    if run.is_empty() {
        return at;
    }
    put(out, at, run.as_bytes())
}

#[inline]
pub fn decode_string_content_into(kind: Kind, text: &str, out: &mut [u8]) -> usize {
    let mut at = 0;
    let mut rest = text;
    loop {
        let (run, later) = split_plain(kind, rest);
        at = put_run(out, at, run);
        let Some((piece, after)) = parse_char_or_escape(kind, later) else {
            return at;
        };
        at = put_piece(out, at, piece);
        rest = after;
    }
}

#[cfg(feature = "__rendered")]
#[inline]
pub fn decode_str_into(body: &str, out: &mut [u8]) -> usize {
    decode_string_content_into(Kind::Str, body, out)
}

#[inline]
pub fn decode_bytes_into(kind: Kind, body: &str, out: &mut [u8]) -> usize {
    decode_string_content_into(kind, body, out)
}

#[cfg(feature = "__rendered")]
#[inline]
fn body_unit(kind: Kind, body: &str) -> u32 {
    let Some((piece, _)) = parse_char_or_escape(kind, body) else {
        unreachable!()
    };
    piece_code(kind, piece)
}

#[cfg(feature = "__rendered")]
#[inline]
pub fn byte_of(text: &str) -> u8 {
    parse_known_literal(text).unit as u8
}

#[cfg(feature = "__rendered")]
#[inline]
pub fn char_of(text: &str) -> char {
    match char::from_u32(parse_known_literal(text).unit) {
        Some(c) => c,
        None => unreachable!(),
    }
}

#[cfg(feature = "__rendered")]
#[inline]
pub fn byte_of_body(body: &str) -> u8 {
    body_unit(Kind::Byte, body) as u8
}

#[cfg(feature = "__rendered")]
#[inline]
pub fn char_of_body(body: &str) -> char {
    match char::from_u32(body_unit(Kind::Char, body)) {
        Some(c) => c,
        None => unreachable!(),
    }
}

#[cfg(feature = "__rendered")]
#[inline]
pub fn is_plain(kind: Kind, text: &str) -> bool {
    match kind {
        Kind::Float => float_is_plain(text),
        _ => reads_plain(kind, text),
    }
}

#[cfg(feature = "__rendered")]
#[inline]
fn reads_plain(kind: Kind, text: &str) -> bool {
    match parse_literal(text) {
        Some(found) => found.body.plain && found.kind == kind,
        None => false,
    }
}

#[cfg(feature = "__rendered")]
#[inline]
fn float_is_plain(text: &str) -> bool {
    match parse_float_literal(text) {
        Some(found) => found.body.plain,
        None => false,
    }
}
