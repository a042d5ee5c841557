// Rendered from crates/rl_lenient/src/quoted_forms.rt by tools/render, which erases contracts: change that file, and render again.
//! Functions that parse quoted literals, and return the byte offsets of their parts.

use crate::rl_lenient::found::{Body, Found};
use crate::rl_lenient::units::{is_ascii, parse_char_or_escape, piece_code, split_plain};
use crate::rl_syntax::Kind;
use crate::rl_syntax::classes::skip_hashes;
use crate::rl_syntax::text::{after_prefix, before, split_ascii};

#[derive(Clone, Copy)]
pub enum QuotedForm {
    Cooked,
    Raw,
    Single,
}

#[inline(always)]
fn split_string_opener(kind: Kind, text: &str) -> Option<(QuotedForm, Kind, &str)> {
    match split_ascii(text) {
        Some((first, rest)) if first as char == kind.quote() => {
            Some((QuotedForm::Cooked, kind, rest))
        }
        Some((b'r', rest)) => Some((QuotedForm::Raw, kind, rest)),
        _ => None,
    }
}

#[inline]
fn split_byte_opener(text: &str) -> Option<(QuotedForm, Kind, &str)> {
    match split_ascii(text) {
        Some((first, rest)) if first as char == Kind::Byte.quote() => {
            Some((QuotedForm::Single, Kind::Byte, rest))
        }
        _ => split_string_opener(Kind::ByteStr, text),
    }
}

#[inline(always)]
pub fn split_opener(text: &str) -> Option<(QuotedForm, Kind, &str)> {
    let (first, rest) = split_ascii(text)?;
    match first {
        b'\'' => Some((QuotedForm::Single, Kind::Char, rest)),
        b'b' => split_byte_opener(rest),
        b'c' => split_string_opener(Kind::CStr, rest),
        _ => split_string_opener(Kind::Str, text),
    }
}

#[inline]
pub fn skip_string_content(kind: Kind, text: &str) -> &str {
    match kind {
        Kind::Str => skip_units_of(Kind::Str, text),
        _ => skip_units_of(kind, text),
    }
}

#[inline(always)]
fn skip_units_of(kind: Kind, text: &str) -> &str {
    let mut rest = text;
    while let Some((_, after)) = parse_char_or_escape(kind, rest) {
        let (_, following) = split_plain(kind, after);
        rest = following;
    }
    rest
}

#[inline]
pub fn split_last_quote(text: &str) -> Option<(&str, &str)> {
    text.rsplit_once('"')
}

#[inline]
pub(crate) fn has_nul(text: &str) -> bool {
    text.as_bytes().contains(&b'\0')
}

#[inline(always)]
pub fn strip_quote(kind: Kind, text: &str) -> Option<&str> {
    match split_ascii(text) {
        Some((first, rest)) if first as char == kind.quote() => Some(rest),
        _ => None,
    }
}

#[inline(always)]
pub fn part_offsets(text: &str, opened: &str, closer: &str, suffix: &str, plain: bool) -> Body {
    Body {
        lo: text.len() - opened.len(),
        hi: text.len() - closer.len(),
        suffix_at: text.len() - suffix.len(),
        plain,
    }
}

#[inline(always)]
fn quoted(kind: Kind, body: Body, unit: u32) -> Found {
    Found {
        kind,
        body,
        magnitude: 0,
        truth: false,
        unit,
    }
}

#[inline(always)]
pub(crate) fn find_cooked(kind: Kind, text: &str, inside: &str) -> Option<Found> {
    let (_, following) = split_plain(kind, inside);
    if let Some(suffix) = strip_quote(Kind::Str, following) {
        return Some(quoted(kind, part_offsets(text, inside, following, suffix, true), 0));
    }
    let closer = skip_string_content(kind, following);
    let suffix = strip_quote(Kind::Str, closer)?;
    Some(quoted(kind, part_offsets(text, inside, closer, suffix, false), 0))
}

#[inline]
fn raw_places(kind: Kind, text: &str, inside: &str) -> Option<Body> {
    let rest = skip_hashes(inside);
    let hashes = before(inside, rest);
    let opened = strip_quote(Kind::Str, rest)?;
    let (body, after) = split_last_quote(opened)?;
    let suffix = after_prefix(hashes, after)?;
    if !holds_all(kind, body) {
        return None;
    }
    let closer = &opened[body.len()..];
    Some(part_offsets(text, opened, closer, suffix, true))
}

#[inline(always)]
pub(crate) fn find_raw(kind: Kind, text: &str, inside: &str) -> Option<Found> {
    let body = raw_places(kind, text, inside)?;
    Some(quoted(kind, body, 0))
}

#[inline]
fn holds_all(kind: Kind, text: &str) -> bool {
    match kind {
        Kind::ByteStr => is_ascii(text),
        Kind::CStr => !has_nul(text),
        _ => true,
    }
}

#[inline(always)]
pub(crate) fn find_single(kind: Kind, text: &str, inside: &str) -> Option<Found> {
    let (piece, closer) = parse_char_or_escape(kind, inside)?;
    let suffix = strip_quote(Kind::Char, closer)?;
    let body = part_offsets(text, inside, closer, suffix, false);
    Some(quoted(kind, body, piece_code(kind, piece)))
}

#[inline(always)]
pub(crate) fn begins_character(text: &str) -> bool {
    let bytes = text.as_bytes();
    bytes.len() >= 3 && bytes[0] == b'\''
}

#[cfg_attr(debug_assertions, inline)]
#[cfg_attr(not(debug_assertions), inline(always))]
pub(crate) fn find_bare_character(text: &str) -> Option<Found> {
    let bytes = text.as_bytes();
    if bytes[2] as char != Kind::Char.quote() || bytes[1] == b'\\' || bytes[1] >= 128 {
        return None;
    }
    let body = Body {
        lo: 1,
        hi: 2,
        suffix_at: 3,
        plain: false,
    };
    Some(quoted(Kind::Char, body, bytes[1] as u32))
}

#[inline]
pub(crate) fn find_character(text: &str) -> Option<Found> {
    find_single(Kind::Char, text, crate::slices::after_first!(text))
}
