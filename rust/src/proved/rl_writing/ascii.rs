// Rendered from crates/rl_writing/src/ascii.rt by tools/render, which erases contracts: change that file, and render again.
//! Functions that write string and character literals in ASCII, with `\u{..}` for each non-ASCII character.

use crate::rl_writing::numerals::{put_digits_reversed, put_grouped};
#[cfg(feature = "writers")]
use crate::rl_syntax::Kind;
use crate::rl_syntax::slice_writer::{put, put_byte};
#[cfg(feature = "writers")]
use crate::rl_syntax::slice_writer::put_text;
#[cfg(feature = "writers")]
use crate::rl_syntax::text::split_char;
#[cfg(feature = "writers")]
use crate::rl_syntax::written_unit::escape;

#[inline]
pub fn put_unicode_escape(out: &mut [u8], at: usize, c: char) -> usize {
    let mut room = [0; 21];
    let count = put_digits_reversed(u128::from(c), 16, false, &mut room);
    let at = put(out, at, b"\\u{");
    let at = put_grouped(out, at, &room[..count], 0);
    put_byte(out, at, b'}')
}

#[cfg(feature = "writers")]
#[inline]
fn put_ascii(out: &mut [u8], at: usize, kind: Kind, c: char) -> usize {
    if c >= '\u{80}' {
        return put_unicode_escape(out, at, c);
    }
    match escape(kind, c, &mut [0; 4]) {
        Some(text) => put_text(out, at, text),
        None => put_byte(out, at, c as u8),
    }
}

#[cfg(feature = "writers")]
#[inline]
pub fn write_str_ascii_into(value: &str, out: &mut [u8]) -> usize {
    let mut at = put_text(out, 0, Kind::Str.opener());
    let mut rest = value;
    while let Some((c, after)) = split_char(rest) {
        at = put_ascii(out, at, Kind::Str, c);
        rest = after;
    }
    put_byte(out, at, b'"')
}

#[cfg(feature = "writers")]
#[inline]
pub fn write_char_ascii_into(value: char, out: &mut [u8]) -> usize {
    let at = put_text(out, 0, Kind::Char.opener());
    let at = put_ascii(out, at, Kind::Char, value);
    put_byte(out, at, b'\'')
}
