// Rendered from crates/rl_syntax/src/written_into.rt by tools/render, which erases contracts: change that file, and render again.
//! Functions that write values as literals into a slice of the caller's. The literals have the written forms of
//! docs/GRAMMAR.md, as those of the module `writer` of `rl_tokens` do. Nothing is allocated.

use crate::rl_syntax::kind::Kind;
use crate::rl_syntax::slice_writer::{put_char, put_text};
use crate::rl_syntax::text::split_char;
use crate::rl_syntax::written_unit::escape;

#[inline]
fn put_written(out: &mut [u8], at: usize, kind: Kind, c: char) -> usize {
    match escape(kind, c, &mut [0; 4]) {
        Some(text) => put_text(out, at, text),
        None => put_char(out, at, c),
    }
}

#[inline]
pub fn write_str_into(value: &str, out: &mut [u8]) -> usize {
    let mut at = put_text(out, 0, Kind::Str.opener());
    let mut rest = value;
    while let Some((c, after)) = split_char(rest) {
        at = put_written(out, at, Kind::Str, c);
        rest = after;
    }
    put_char(out, at, Kind::Str.quote())
}

#[inline]
pub fn write_bytes_into(kind: Kind, value: &[u8], out: &mut [u8]) -> usize {
    let mut at = put_text(out, 0, kind.opener());
    for byte in value {
        at = put_written(out, at, kind, char::from(*byte));
    }
    put_char(out, at, kind.quote())
}

#[inline]
pub fn write_char_into(value: char, out: &mut [u8]) -> usize {
    let at = put_text(out, 0, Kind::Char.opener());
    let at = put_written(out, at, Kind::Char, value);
    put_char(out, at, Kind::Char.quote())
}
