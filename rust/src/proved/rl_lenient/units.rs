// Rendered from crates/rl_lenient/src/units.rt by tools/render, which erases contracts: change that file, and render again.
//! Functions that parse the characters and escapes between the quotes of a literal.

use crate::rl_syntax::Kind;
use crate::rl_syntax::classes::{CharClass, skip_class};
use crate::rl_syntax::scan::{Marks, ascii_len_before_mark, len_before_mark};
use crate::rl_syntax::text::{ascii_at, split_char};

const NO_MARK: Marks = Marks {
    first: 255,
    second: 255,
    third: 255,
    fourth: 255,
};

#[derive(Clone, Copy)]
pub enum Piece {
    Character(char),
    Byte(u8),
    Nothing,
}

#[inline(always)]
pub fn piece_code(kind: Kind, piece: Piece) -> u32 {
    match piece {
        Piece::Character(c) => c as u32,
        Piece::Byte(b) => b as u32,
        Piece::Nothing => unreachable!(),
    }
}

pub fn is_allowed_in_single_quotes(c: char) -> bool {
    !matches!(c, '\'' | '\\' | '\n' | '\r' | '\t')
}

pub fn is_plain_char(kind: Kind, c: char) -> bool {
    match kind {
        Kind::Str => !matches!(c, '"' | '\\' | '\r'),
        Kind::ByteStr => c.is_ascii() && !matches!(c, '"' | '\\' | '\r'),
        Kind::CStr => !matches!(c, '"' | '\\' | '\r' | '\0'),
        Kind::Char => c != '\\',
        Kind::Byte => c.is_ascii() && is_allowed_in_single_quotes(c),
        Kind::Int | Kind::Float | Kind::Bool => false,
    }
}

pub fn allows_code(kind: Kind, code: u32) -> bool {
    !matches!(kind, Kind::CStr) || code != 0
}

fn may_be_hex(kind: Kind, code: u32) -> bool {
    allows_code(kind, code) && (!kind.decodes_to_chars() || code < 128)
}

pub fn allows_unicode_escapes(kind: Kind) -> bool {
    !matches!(kind, Kind::ByteStr | Kind::Byte)
}

const NO_LETTER: u8 = 255;

const NAMED: [u8; 128] = [
    255, 255, 255, 255, 255, 255, 255, 255, 255, 255, 255, 255, 255, 255, 255, 255, 255, 255, 255,
    255, 255, 255, 255, 255, 255, 255, 255, 255, 255, 255, 255, 255, 255, 255, b'"', 255, 255, 255,
    255, b'\'', 255, 255, 255, 255, 255, 255, 255, 255, 0, 255, 255, 255, 255, 255, 255, 255, 255,
    255, 255, 255, 255, 255, 255, 255, 255, 255, 255, 255, 255, 255, 255, 255, 255, 255, 255, 255,
    255, 255, 255, 255, 255, 255, 255, 255, 255, 255, 255, 255, 255, 255, 255, 255, b'\\', 255,
    255, 255, 255, 255, 255, 255, 255, 255, 255, 255, 255, 255, 255, 255, 255, 255, b'\n', 255,
    255, 255, b'\r', 255, b'\t', 255, 255, 255, 255, 255, 255, 255, 255, 255, 255, 255,
];

#[inline(always)]
fn named_value(kind: Kind, letter: u8) -> Option<u8> {
    let value = NAMED[letter as usize];
    if value == NO_LETTER || !allows_code(kind, value as u32) {
        return None;
    }
    Some(value)
}

#[inline(always)]
fn digit(text: &str, at: usize) -> Option<(u32, usize)> {
    let (byte, after) = ascii_at(text, at)?;
    Some(((byte as char).to_digit(16)?, after))
}

#[inline(always)]
fn hex_escape(kind: Kind, text: &str, at: usize) -> Option<(u8, usize)> {
    let (high, after) = digit(text, at)?;
    let (low, after) = digit(text, after)?;
    let code = high * 16 + low;
    if may_be_hex(kind, code) {
        Some((code as u8, after))
    } else {
        None
    }
}

#[derive(Clone, Copy)]
pub struct CodeDigits {
    pub value: u32,
    pub count: u32,
    pub last: usize,
    pub end: usize,
}

#[cfg_attr(debug_assertions, inline)]
#[cfg_attr(not(debug_assertions), inline(always))]
fn more_digits(first: u32, text: &str, from: usize, after: usize) -> CodeDigits {
    let mut value = first;
    let mut count = 1_u32;
    let mut last = from;
    let mut at = after;
    while let Some((next, following)) = ascii_at(text, at) {
        if let Some(digit) = (next as char).to_digit(16) {
            if count == 6 {
                break;
            }
            value = value * 16 + digit;
            count += 1;
            last = at;
        } else if next != b'_' {
            break;
        }
        at = following;
    }
    CodeDigits {
        value,
        count,
        last,
        end: at,
    }
}

#[inline(always)]
pub fn parse_code_digits(text: &str, from: usize) -> Option<CodeDigits> {
    let (first, after) = digit(text, from)?;
    Some(more_digits(first, text, from, after))
}

#[inline(always)]
fn closed_code(text: &str, digits: CodeDigits) -> Option<(char, usize)> {
    let Some((b'}', after)) = ascii_at(text, digits.end) else {
        return None;
    };
    Some((char::from_u32(digits.value)?, after))
}

#[cfg_attr(debug_assertions, inline)]
#[cfg_attr(not(debug_assertions), inline(always))]
fn unicode_escape(kind: Kind, text: &str, at: usize) -> Option<(char, usize)> {
    let Some((b'{', inside)) = ascii_at(text, at) else {
        return None;
    };
    let (c, after) = closed_code(text, parse_code_digits(text, inside)?)?;
    if allows_unicode_escapes(kind) && allows_code(kind, c as u32) {
        Some((c, after))
    } else {
        None
    }
}

fn skip_blanks(text: &str) -> &str {
    skip_class(CharClass::Blank, text)
}

#[cfg_attr(debug_assertions, inline)]
#[cfg_attr(not(debug_assertions), inline(always))]
pub fn parse_escape(kind: Kind, text: &str, at: usize) -> Option<(Piece, &str)> {
    let (letter, after) = ascii_at(text, at)?;
    match letter {
        b'x' => {
            let (code, end) = hex_escape(kind, text, after)?;
            Some((Piece::Byte(code), &text[end..]))
        }
        b'u' => {
            let (c, end) = unicode_escape(kind, text, after)?;
            Some((Piece::Character(c), &text[end..]))
        }
        b'\n' | b'\r' => {
            if kind.is_string() {
                Some((Piece::Nothing, skip_blanks(&text[after..])))
            } else {
                None
            }
        }
        _ => {
            let code = named_value(kind, letter)?;
            Some((Piece::Byte(code), &text[after..]))
        }
    }
}

#[inline(always)]
fn character(kind: Kind, text: &str) -> Option<(Piece, &str)> {
    match split_char(text) {
        Some((c, rest)) if is_plain_char(kind, c) => Some((Piece::Character(c), rest)),
        Some(('\r', rest)) if kind.is_string() => match split_char(rest) {
            Some(('\n', rest)) => Some((Piece::Byte(b'\n'), rest)),
            _ => None,
        },
        _ => None,
    }
}

#[inline(always)]
pub fn parse_char_or_escape(kind: Kind, text: &str) -> Option<(Piece, &str)> {
    match ascii_at(text, 0) {
        Some((b'\\', at)) => parse_escape(kind, text, at),
        _ => character(kind, text),
    }
}

#[inline(always)]
pub fn split_before_mark_or_non_ascii(marks: Marks, text: &str) -> (&str, &str) {
    crate::slices::split_at!(text, ascii_len_before_mark(marks, text.as_bytes()))
}

pub(crate) fn is_ascii(text: &str) -> bool {
    ascii_len_before_mark(NO_MARK, text.as_bytes()) == text.len()
}

#[cfg_attr(debug_assertions, inline)]
#[cfg_attr(not(debug_assertions), inline(always))]
fn ends_of_runs(kind: Kind) -> Marks {
    let fourth = match kind {
        Kind::CStr => 0,
        _ => b'"',
    };
    Marks {
        first: b'"',
        second: b'\\',
        third: b'\r',
        fourth,
    }
}

#[inline(never)]
fn run_len(kind: Kind, bytes: &[u8]) -> usize {
    match kind {
        Kind::CStr => len_before_mark(ends_of_runs(Kind::CStr), bytes),
        _ => len_before_mark(ends_of_runs(Kind::Str), bytes),
    }
}

#[inline(never)]
fn byte_run_len(bytes: &[u8]) -> usize {
    ascii_len_before_mark(ends_of_runs(Kind::ByteStr), bytes)
}

#[inline(always)]
fn plain_len(kind: Kind, bytes: &[u8]) -> usize {
    if !bytes.is_empty() && bytes[0] == b'\\' {
        return 0;
    }
    match kind {
        Kind::ByteStr => byte_run_len(bytes),
        _ => run_len(kind, bytes),
    }
}

#[inline(always)]
pub fn split_plain(kind: Kind, text: &str) -> (&str, &str) {
    crate::slices::split_at!(text, plain_len(kind, text.as_bytes()))
}
