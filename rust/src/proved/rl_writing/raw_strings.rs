// Rendered from crates/rl_writing/src/raw_strings.rt by tools/render, which erases contracts: change that file, and render again.
//! Functions that write raw string literals, as `r#"a"#`, with the fewest hashes.

use crate::rl_syntax::Kind;
use crate::rl_syntax::slice_writer::{put_byte, put_text};
use crate::rl_syntax::text::split_char;

#[inline]
fn raw_may_contain(kind: Kind, c: char) -> bool {
    match kind {
        Kind::ByteStr => c != '\r' && c < '\u{80}',
        Kind::CStr => c != '\r' && c != '\0',
        _ => c != '\r',
    }
}

#[inline]
fn hashes_opened(opened: usize, c: char) -> usize {
    match c {
        '"' => 1,
        '#' if opened > 0 => opened + 1,
        _ => 0,
    }
}

#[inline]
pub fn min_raw_hashes(kind: Kind, text: &str) -> Option<usize> {
    let mut needed: usize = 0;
    let mut opened = 0;
    let mut rest = text;
    while let Some((c, after)) = split_char(rest) {
        if !raw_may_contain(kind, c) {
            return None;
        }
        opened = hashes_opened(opened, c);
        needed = needed.max(opened);
        rest = after;
    }
    if needed < 256 { Some(needed) } else { None }
}

#[inline]
pub fn raw_text_and_hashes(kind: Kind, value: &[u8]) -> Option<(&str, usize)> {
    let Ok(text) = core::str::from_utf8(value) else {
        return None;
    };
    match min_raw_hashes(kind, text) {
        Some(hashes) => Some((text, hashes)),
        None => None,
    }
}

#[inline]
fn put_hashes(out: &mut [u8], at: usize, hashes: usize) -> usize {
    let mut end = at;
    for _ in 0..hashes {
        end = put_byte(out, end, b'#');
    }
    end
}

#[inline]
fn raw_opener(kind: Kind) -> &'static str {
    match kind {
        Kind::Str => "r",
        Kind::ByteStr => "br",
        Kind::CStr => "cr",
        _ => unreachable!(),
    }
}

#[inline]
pub fn write_raw_into(kind: Kind, hashes: usize, text: &str, out: &mut [u8]) -> usize {
    let at = put_text(out, 0, raw_opener(kind));
    let at = put_hashes(out, at, hashes);
    let at = put_byte(out, at, b'"');
    let at = put_text(out, at, text);
    let at = put_byte(out, at, b'"');
    put_hashes(out, at, hashes)
}
