// Rendered from crates/rl_flaws/src/piece_ends.rt by tools/render, which erases contracts: change that file, and render again.
//! Finds the end of an invalid character or escape in a quoted literal.

use crate::rl_strict::walk_units::split_first_char;
use crate::rl_strict::{FlawKind, LineEnds};

#[inline]
fn after_one(ends: LineEnds, quote: char, text: &str) -> &str {
    match split_first_char(ends, text) {
        Some((c, rest)) if c != '\\' && c != quote => rest,
        _ => text,
    }
}

#[inline]
fn after_hex(ends: LineEnds, quote: char, text: &str) -> &str {
    match split_first_char(ends, text) {
        Some((c, rest)) if c.is_ascii_hexdigit() => after_one(ends, quote, rest),
        _ => after_one(ends, quote, text),
    }
}

#[inline]
fn is_code_part(c: char) -> bool {
    c.is_ascii_hexdigit() || c == '_'
}

#[inline]
fn after_code_digits(ends: LineEnds, quote: char, text: &str) -> &str {
    let mut rest = text;
    while let Some((c, following)) = split_first_char(ends, rest) {
        if !is_code_part(c) {
            return after_one(ends, quote, rest);
        }
        rest = following;
    }
    rest
}

#[inline]
fn after_brace(ends: LineEnds, quote: char, text: &str) -> &str {
    match split_first_char(ends, text) {
        Some((c, rest)) if c.is_ascii_hexdigit() => after_code_digits(ends, quote, rest),
        _ => after_one(ends, quote, text),
    }
}

#[inline]
fn after_unicode(ends: LineEnds, quote: char, text: &str) -> &str {
    match split_first_char(ends, text) {
        Some(('{', rest)) => after_brace(ends, quote, rest),
        _ => after_one(ends, quote, text),
    }
}

#[inline]
fn after_escape(ends: LineEnds, quote: char, text: &str) -> &str {
    match split_first_char(ends, text) {
        Some(('x', rest)) => after_hex(ends, quote, rest),
        Some(('u', rest)) => after_unicode(ends, quote, rest),
        Some((_, rest)) => rest,
        None => text,
    }
}

#[inline]
pub fn after_bad_piece(ends: LineEnds, quote: char, text: &str) -> &str {
    match split_first_char(ends, text) {
        Some(('\\', rest)) => after_escape(ends, quote, rest),
        Some((_, rest)) => rest,
        None => text,
    }
}

#[inline]
pub fn is_flaw_of_unit(kind: FlawKind) -> bool {
    matches!(
        kind,
        FlawKind::UnknownEscape
            | FlawKind::NoUnicode
            | FlawKind::NoHexDigit
            | FlawKind::NoBrace
            | FlawKind::EmptyBraces
            | FlawKind::TooManyDigits
            | FlawKind::HexEscapeOutOfRange
            | FlawKind::UnicodeEscapeOutOfRange
            | FlawKind::Surrogate
            | FlawKind::Nul
            | FlawKind::NotAscii
            | FlawKind::MustEscape
            | FlawKind::CarriageReturn
    )
}

#[inline]
pub fn is_flaw_after_quote(kind: FlawKind) -> bool {
    matches!(
        kind,
        FlawKind::TextAfterQuote
            | FlawKind::ExtraHash
            | FlawKind::UnderscoreSuffix
            | FlawKind::BadSuffix
    )
}
