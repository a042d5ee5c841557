// Rendered from crates/rl_style/src/hidden.rt by tools/render, which erases contracts: change that file, and render again.
//! Writes invisible and bidirectional characters as numeric escapes.

use crate::rl_style::codes::put_digits;
use crate::rl_style::style::Style;
use crate::rl_syntax::slice_writer::{put_byte, put_char, put_text};
use crate::rl_syntax::text::split_char;
use crate::rl_writing::{is_control_invisible_or_bidi, put_unicode_escape};

#[inline]
fn needs_number(c: char) -> bool {
    is_control_invisible_or_bidi(c) && !matches!(c, '\n' | '\r' | '\t')
}

#[inline]
pub(crate) fn holds_hidden(text: &str) -> bool {
    let mut rest = text;
    while let Some((c, after)) = split_char(rest) {
        if needs_number(c) {
            return true;
        }
        rest = after;
    }
    false
}

#[inline]
fn lower_digit(digit: u32) -> u8 {
    let digit = digit as u8;
    if digit < 10 {
        b'0' + digit
    } else {
        b'a' + (digit - 10)
    }
}

#[inline]
fn put_two(out: &mut [u8], at: usize, c: char) -> usize {
    let number = c as u32;
    let end = put_byte(out, at, b'\\');
    let end = put_byte(out, end, b'x');
    let end = put_byte(out, end, lower_digit(number / 16));
    put_byte(out, end, lower_digit(number % 16))
}

#[inline]
fn put_code(out: &mut [u8], at: usize, c: char) -> usize {
    if c < '\u{80}' {
        return put_two(out, at, c);
    }
    put_unicode_escape(out, at, c)
}

#[inline]
fn put_styled_code(out: &mut [u8], at: usize, style: Style, c: char) -> usize {
    let mut room = [0; 10];
    let end = put_code(&mut room, 0, c);
    match core::str::from_utf8(&room[..end]) {
        Ok(escape) => put_digits(out, at, style, escape),
        Err(_) => unreachable!(),
    }
}

#[inline]
fn put_hidden(out: &mut [u8], at: usize, style: Style, zero: bool, c: char) -> usize {
    if style.named_escapes && zero && c == '\0' {
        return put_text(out, at, "\\0");
    }
    put_styled_code(out, at, style, c)
}

#[inline]
pub(crate) fn put_itself(out: &mut [u8], at: usize, style: Style, zero: bool, c: char) -> usize {
    if style.hidden && needs_number(c) {
        return put_hidden(out, at, style, zero, c);
    }
    put_char(out, at, c)
}
