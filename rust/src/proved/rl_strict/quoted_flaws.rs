// Rendered from crates/rl_strict/src/quoted_flaws.rt by tools/render, which erases contracts: change that file, and render again.
//! The flaws of invalid escapes and invalid characters in quoted literals.

use crate::rl_strict::flaws::{FlawAt, FlawKind, make_flaw};
use crate::rl_lenient::units::{CodeDigits, allows_code, allows_unicode_escapes, parse_code_digits};
use crate::rl_syntax::Kind;
use crate::rl_syntax::text::split_char;

fn low_digit_flaw(text: &str) -> FlawAt<'_> {
    match split_char(text) {
        None => make_flaw(FlawKind::Unclosed, text),
        Some((c, _)) if c.is_ascii_hexdigit() => make_flaw(FlawKind::Nul, text),
        Some(_) => make_flaw(FlawKind::NoHexDigit, text),
    }
}

fn hex_flaw(kind: Kind, text: &str) -> FlawAt<'_> {
    let Some((first, rest)) = split_char(text) else {
        return make_flaw(FlawKind::Unclosed, text);
    };
    match first.to_digit(16) {
        Some(high) if kind.decodes_to_chars() && high > 7 => make_flaw(
            FlawKind::HexEscapeOutOfRange,
            text,
        ),
        Some(_) => low_digit_flaw(rest),
        None => make_flaw(FlawKind::NoHexDigit, text),
    }
}

fn is_code(kind: Kind, code: u32) -> bool {
    char::from_u32(code).is_some() && allows_code(kind, code)
}

fn code_flaw(code: u32) -> FlawKind {
    if code > 0x10FFFF {
        FlawKind::UnicodeEscapeOutOfRange
    } else if code == 0 {
        FlawKind::Nul
    } else {
        FlawKind::Surrogate
    }
}

fn digits_flaw(kind: Kind, text: &str, digits: CodeDigits) -> FlawAt<'_> {
    if digits.count == 6 && !is_code(kind, digits.value) {
        return make_flaw(code_flaw(digits.value), &text[digits.last..]);
    }
    let rest = &text[digits.end..];
    match split_char(rest) {
        None => make_flaw(FlawKind::Unclosed, rest),
        Some(('}', _)) => make_flaw(code_flaw(digits.value), rest),
        Some((next, _)) if next.is_ascii_hexdigit() => make_flaw(FlawKind::TooManyDigits, rest),
        Some(_) => make_flaw(FlawKind::NoHexDigit, rest),
    }
}

fn first_digit_flaw(kind: Kind, text: &str) -> FlawAt<'_> {
    if let Some(digits) = parse_code_digits(text, 0) {
        return digits_flaw(kind, text, digits);
    }
    match split_char(text) {
        None => make_flaw(FlawKind::Unclosed, text),
        Some(('}', _)) => make_flaw(FlawKind::EmptyBraces, text),
        Some(_) => make_flaw(FlawKind::NoHexDigit, text),
    }
}

pub(crate) fn escape_flaw(kind: Kind, text: &str) -> FlawAt<'_> {
    match split_char(text) {
        None => make_flaw(FlawKind::Unclosed, text),
        Some(('x', digits)) => hex_flaw(kind, digits),
        Some(('u', braces)) => {
            if !allows_unicode_escapes(kind) {
                return make_flaw(FlawKind::NoUnicode, text);
            }
            match split_char(braces) {
                None => make_flaw(FlawKind::Unclosed, braces),
                Some(('{', inside)) => first_digit_flaw(kind, inside),
                Some(_) => make_flaw(FlawKind::NoBrace, braces),
            }
        }
        Some(('0', _)) => make_flaw(FlawKind::Nul, text),
        Some(_) => make_flaw(FlawKind::UnknownEscape, text),
    }
}

pub(crate) fn character_flaw(c: char) -> FlawKind {
    match c {
        '\0' => FlawKind::Nul,
        '\'' => FlawKind::NoCharacter,
        c if c.is_ascii() => FlawKind::MustEscape,
        _ => FlawKind::NotAscii,
    }
}
