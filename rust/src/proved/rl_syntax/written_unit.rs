// Rendered from crates/rl_syntax/src/written_unit.rt by tools/render, which erases contracts: change that file, and render again.
//! The written form of characters and bytes in literals: which ones are escaped, and how.

use crate::rl_syntax::kind::Kind;

#[inline]
fn escaped_closer(kind: Kind) -> &'static str {
    match kind {
        Kind::Byte | Kind::Char => "\\'",
        _ => "\\\"",
    }
}

#[cfg_attr(debug_assertions, inline)]
#[cfg_attr(not(debug_assertions), inline(always))]
fn named_escape(kind: Kind, c: char) -> Option<&'static str> {
    match c {
        '\0' => Some("\\0"),
        '\t' => Some("\\t"),
        '\n' => Some("\\n"),
        '\r' => Some("\\r"),
        '\\' => Some("\\\\"),
        _ if c == kind.quote() => Some(escaped_closer(kind)),
        _ => None,
    }
}

#[inline]
fn is_written_as_number(kind: Kind, c: char) -> bool {
    c < ' ' || c == '\u{7f}' || ('\u{7f}' < c && !kind.decodes_to_chars())
}

#[inline]
fn upper_digit(digit: u32) -> u8 {
    let digit = digit as u8;
    if digit < 10 {
        b'0' + digit
    } else {
        b'A' + (digit - 10)
    }
}

#[inline]
fn number(c: u32, room: &mut [u8; 4]) -> &str {
    *room = [b'\\', b'x', upper_digit(c / 16), upper_digit(c % 16)];
    match core::str::from_utf8(room) {
        Ok(text) => text,
        Err(_) => unreachable!(),
    }
}

#[inline(always)]
pub fn escape(kind: Kind, c: char, room: &mut [u8; 4]) -> Option<&str> {
    match named_escape(kind, c) {
        Some(text) => Some(text),
        None if is_written_as_number(kind, c) => Some(number(c as u32, room)),
        None => None,
    }
}
