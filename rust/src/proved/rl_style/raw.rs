// Rendered from crates/rl_style/src/raw.rt by tools/render, which erases contracts: change that file, and render again.
//! Rewrites raw strings by a style.

use crate::rl_style::cooked::put_pair;
use crate::rl_style::hidden::{holds_hidden, put_itself};
use crate::rl_style::style::Style;
use crate::rl_lenient::digit_runs::begins_digit;
use crate::rl_syntax::Kind;
use crate::rl_syntax::slice_writer::{put_byte, put_text};
use crate::rl_syntax::text::split_char;
use crate::rl_writing::{min_raw_hashes, write_raw_into};

#[inline]
fn is_hash_or_dot(byte: u8) -> bool {
    matches!(byte, b'#' | b'.')
}

#[inline]
fn may_precede_quote(front: &str) -> bool {
    match front.as_bytes() {
        [.., last] => !is_hash_or_dot(*last),
        [] => true,
    }
}

#[inline]
fn may_lose_r(kind: Kind, front: &str) -> bool {
    match kind {
        Kind::Str => may_precede_quote(front),
        _ => true,
    }
}

#[inline]
fn needs_backslash(c: char) -> bool {
    matches!(c, '"' | '\\')
}

#[inline]
fn is_bare(text: &str) -> bool {
    let mut rest = text;
    while let Some((c, after)) = split_char(rest) {
        if needs_backslash(c) {
            return false;
        }
        rest = after;
    }
    true
}

#[inline]
fn loses_raw(style: Style, kind: Kind, front: &str, inside: &str) -> bool {
    may_lose_r(kind, front)
        && (style.raw && is_bare(inside) || style.hidden && holds_hidden(inside))
}

#[inline]
fn put_raw_character(out: &mut [u8], at: usize, style: Style, zero: bool, c: char) -> usize {
    if needs_backslash(c) {
        return put_pair(out, at, c as u8);
    }
    put_itself(out, at, style, zero, c)
}

#[inline]
fn put_raw_inside(out: &mut [u8], at: usize, style: Style, inside: &str) -> usize {
    let mut end = at;
    let mut rest = inside;
    while let Some((c, after)) = split_char(rest) {
        end = put_raw_character(out, end, style, !begins_digit(after), c);
        rest = after;
    }
    end
}

#[inline]
fn put_inside(out: &mut [u8], at: usize, style: Style, inside: &str) -> usize {
    if !style.hidden {
        return put_text(out, at, inside);
    }
    put_raw_inside(out, at, style, inside)
}

#[inline]
fn write_unraw(
    text: &str,
    kind: Kind,
    style: Style,
    inside: &str,
    suffix: &str,
    out: &mut [u8],
) -> usize {
    let at = put_text(out, 0, kind.opener());
    let at = put_inside(out, at, style, inside);
    let at = put_byte(out, at, b'"');
    put_text(out, at, suffix)
}

#[inline]
pub(crate) fn write_raw(
    front: &str,
    text: &str,
    kind: Kind,
    style: Style,
    inside: &str,
    suffix: &str,
    out: &mut [u8],
) -> usize {
    if loses_raw(style, kind, front, inside) {
        return write_unraw(text, kind, style, inside, suffix, out);
    }
    if !style.raw_hashes {
        return put_text(out, 0, text);
    }
    let Some(hashes) = min_raw_hashes(kind, inside) else {
        unreachable!()
    };
    let at = write_raw_into(kind, hashes, inside, out);
    put_text(out, at, suffix)
}
