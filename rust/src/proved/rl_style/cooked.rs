// Rendered from crates/rl_style/src/cooked.rt by tools/render, which erases contracts: change that file, and render again.
//! Rewrites quoted literals with escapes, one character or escape at a time.

use crate::rl_style::codes::put_digits;
use crate::rl_style::hidden::put_itself;
use crate::rl_style::style::Style;
use crate::rl_lenient::units::{Piece, parse_char_or_escape};
use crate::rl_syntax::Kind;
use crate::rl_syntax::slice_writer::{put_byte, put_char, put_text};
use crate::rl_syntax::text::{before, split_char, strip_byte};

#[inline]
fn is_quote(c: char) -> bool {
    matches!(c, '\'' | '"')
}

#[inline]
fn begins_number(c: char) -> bool {
    matches!(c, 'x' | 'u')
}

#[inline]
fn loses_backslash(style: Style, kind: Kind, quote: char) -> bool {
    style.quote_escapes && quote != kind.quote()
}

#[inline]
fn ascii_or(code: u32) -> u8 {
    if code < 128 { code as u8 } else { 128 }
}

#[inline]
fn ascii_of(kind: Kind, piece: Piece) -> u8 {
    match piece {
        Piece::Character(c) => ascii_or(c as u32),
        Piece::Byte(byte) => ascii_or(byte as u32),
        Piece::Nothing => 128,
    }
}

#[inline]
fn lettered(zero: bool, byte: u8) -> u8 {
    if zero || byte != 0 { byte } else { 128 }
}

#[inline]
fn represents_digit(kind: Kind, text: &str) -> bool {
    match parse_char_or_escape(kind, text) {
        Some((piece, _)) => ascii_of(kind, piece).is_ascii_digit(),
        None => false,
    }
}

#[inline]
fn is_visible(style: Style, byte: u8) -> bool {
    style.ascii_escapes && matches!(byte, b'!'..=b'~')
}

#[inline]
fn has_letter(style: Style, byte: u8) -> bool {
    style.named_escapes && matches!(byte, b'\n' | b'\r' | b'\t' | 0)
}

#[inline]
fn letter_of(byte: u8) -> u8 {
    match byte {
        b'\n' => b'n',
        b'\r' => b'r',
        b'\t' => b't',
        _ => b'0',
    }
}

#[inline]
pub(crate) fn put_pair(out: &mut [u8], at: usize, byte: u8) -> usize {
    let end = put_byte(out, at, b'\\');
    put_byte(out, end, byte)
}

#[inline]
fn put_visible(out: &mut [u8], at: usize, kind: Kind, byte: u8) -> usize {
    if byte as char == kind.quote() || byte == b'\\' {
        return put_pair(out, at, byte);
    }
    put_byte(out, at, byte)
}

#[inline]
fn put_number(out: &mut [u8], at: usize, kind: Kind, style: Style, unit: &str, byte: u8) -> usize {
    if is_visible(style, byte) {
        return put_visible(out, at, kind, byte);
    }
    if has_letter(style, byte) {
        return put_pair(out, at, letter_of(byte));
    }
    put_digits(out, at, style, unit)
}

#[inline]
fn put_escape(
    out: &mut [u8],
    at: usize,
    kind: Kind,
    style: Style,
    unit: &str,
    escape: &str,
    byte: u8,
) -> usize {
    let Some((first, _)) = split_char(escape) else {
        return put_text(out, at, unit);
    };
    if is_quote(first) {
        if loses_backslash(style, kind, first) {
            return put_text(out, at, escape);
        }
        return put_text(out, at, unit);
    }
    if begins_number(first) {
        return put_number(out, at, kind, style, unit, byte);
    }
    put_text(out, at, unit)
}

#[inline]
fn put_plain(out: &mut [u8], at: usize, kind: Kind, style: Style, unit: &str, byte: u8) -> usize {
    match split_char(unit) {
        Some((c, rest)) => {
            let end = put_itself(out, at, style, byte == 0, c);
            put_text(out, end, rest)
        }
        None => at,
    }
}

#[inline]
fn put_unescaped(out: &mut [u8], at: usize, kind: Kind, style: Style, unit: &str, byte: u8) -> usize {
    if !style.hidden {
        return put_text(out, at, unit);
    }
    put_plain(out, at, kind, style, unit, byte)
}

#[inline]
fn put_unit(out: &mut [u8], at: usize, kind: Kind, style: Style, unit: &str, byte: u8) -> usize {
    match strip_byte(unit, b'\\') {
        Some(escape) => put_escape(out, at, kind, style, unit, escape, byte),
        None => put_unescaped(out, at, kind, style, unit, byte),
    }
}

#[inline]
fn put_units(out: &mut [u8], at: usize, kind: Kind, style: Style, inside: &str) -> usize {
    let mut end = at;
    let mut rest = inside;
    while let Some((piece, after)) = parse_char_or_escape(kind, rest) {
        let byte = lettered(!represents_digit(kind, after), ascii_of(kind, piece));
        end = put_unit(out, end, kind, style, before(rest, after), byte);
        rest = after;
    }
    end
}

#[inline]
pub(crate) fn write_cooked(
    text: &str,
    kind: Kind,
    style: Style,
    inside: &str,
    suffix: &str,
    out: &mut [u8],
) -> usize {
    let at = put_text(out, 0, kind.opener());
    let at = put_units(out, at, kind, style, inside);
    let at = put_char(out, at, kind.quote());
    put_text(out, at, suffix)
}
