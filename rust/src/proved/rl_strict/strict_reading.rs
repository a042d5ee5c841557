// Rendered from crates/rl_strict/src/strict_reading.rt by tools/render, which erases contracts: change that file, and render again.
//! Parses a text as one literal token of Rust's grammar, or returns its flaw.

use crate::rl_strict::flaws::{Flaw, FlawAt, FlawKind, flaw_at_end_or_before, make_flaw, non_literal_flaw};
use crate::rl_strict::line_ends::LineEnds;
use crate::rl_strict::read_numbers::{Number, parse_number};
use crate::rl_strict::read_quoted::{Single, quoted_at, text_at, unit_at};
use crate::rl_strict::walk_units::split_first_char;
use crate::rl_lenient::digit_runs::begins_digit;
use crate::rl_lenient::quoted_forms::split_opener;
use crate::rl_lenient::units::is_allowed_in_single_quotes;
use crate::rl_lenient::{Body, bool_of};
use crate::rl_syntax::Kind;
use crate::rl_syntax::text::{ascii_at, begins_with_char, strip_byte};

#[derive(Clone, Copy)]
pub enum Reading {
    Text(Kind, Body),
    Unit(Kind, Body, u32),
    Integer(Option<u128>, usize),
    Float(usize),
    Truth(bool),
}

#[derive(Clone, Copy)]
pub enum Front<'t> {
    Quote(&'t str),
    Bare(u8),
    Apostrophe(&'t str),
    Digit,
    Other,
}

#[cfg_attr(debug_assertions, inline)]
#[cfg_attr(not(debug_assertions), inline(always))]
fn bare_of(text: &str) -> Option<u8> {
    let bytes = text.as_bytes();
    if bytes.len() != 3 || bytes[0] != b'\'' || bytes[2] != b'\'' || bytes[1] >= 128 {
        return None;
    }
    if is_allowed_in_single_quotes(bytes[1] as char) {
        Some(bytes[1])
    } else {
        None
    }
}

#[cfg_attr(debug_assertions, inline)]
#[cfg_attr(not(debug_assertions), inline(always))]
pub fn classify_start(text: &str) -> Front<'_> {
    match ascii_at(text, 0) {
        Some((b'"', at)) => Front::Quote(&text[at..]),
        Some((b'\'', at)) => match bare_of(text) {
            Some(c) => Front::Bare(c),
            None => Front::Apostrophe(&text[at..]),
        },
        Some((b'0'..=b'9', _)) => Front::Digit,
        _ => Front::Other,
    }
}

#[inline(always)]
pub fn reading_of_number(text: &str, number: Number<'_>) -> Reading {
    match number {
        Number::Integer(magnitude, suffix) => {
            Reading::Integer(magnitude, text.len() - suffix.len())
        }
        Number::Float(suffix) => Reading::Float(text.len() - suffix.len()),
    }
}

#[inline(always)]
fn number_at(text: &str) -> Result<Reading, FlawAt<'_>> {
    match parse_number(text) {
        Ok(number) => Ok(reading_of_number(text, number)),
        Err(stop) => Err(FlawAt {
            kind: stop.kind,
            piece: text,
            rest: stop.rest,
        }),
    }
}

#[cfg_attr(debug_assertions, inline)]
#[cfg_attr(not(debug_assertions), inline(always))]
fn negative_at<'t>(text: &'t str, number: &'t str) -> Result<Reading, FlawAt<'t>> {
    if begins_digit(number) {
        match parse_number(number) {
            Ok(read) => Ok(reading_of_number(text, read)),
            Err(stop) => Err(FlawAt {
                kind: stop.kind,
                piece: text,
                rest: stop.rest,
            }),
        }
    } else {
        let flaw = flaw_at_end_or_before(FlawKind::UnexpectedEnd, FlawKind::NoNumber, number);
        Err(FlawAt {
            kind: flaw.kind,
            piece: text,
            rest: flaw.rest,
        })
    }
}

fn word_flaw(text: &str) -> FlawAt<'_> {
    if begins_with_char(text, '-') {
        make_flaw(FlawKind::Minus, text)
    } else {
        non_literal_flaw(text).with_piece(text)
    }
}

#[inline(always)]
fn other_at(ends: LineEnds, text: &str) -> Result<Reading, FlawAt<'_>> {
    match split_opener(text) {
        Some((form, kind, inside)) => quoted_at(ends, form, kind, text, inside),
        None => match bool_of(text) {
            Some(truth) => Ok(Reading::Truth(truth)),
            None => Err(word_flaw(text)),
        },
    }
}

#[inline]
fn read_rare(ends: LineEnds, text: &str) -> Result<Reading, FlawAt<'_>> {
    match ends {
        LineEnds::Text => other_at(LineEnds::Text, text),
        LineEnds::File => other_at(LineEnds::File, text),
    }
}

#[inline]
fn read_at(ends: LineEnds, text: &str) -> Result<Reading, FlawAt<'_>> {
    match classify_start(text) {
        Front::Quote(inside) => match text_at(ends, Kind::Str, text, inside) {
            Ok(body) => Ok(Reading::Text(Kind::Str, body)),
            Err(flaw) => Err(flaw),
        },
        Front::Bare(c) => {
            let body = Body {
                lo: 1,
                hi: 2,
                suffix_at: 3,
                plain: false,
            };
            Ok(Reading::Unit(Kind::Char, body, c as u32))
        }
        Front::Apostrophe(inside) => match unit_at(ends, Kind::Char, text, inside) {
            Ok(single) => Ok(Reading::Unit(Kind::Char, single.body, single.unit)),
            Err(flaw) => Err(flaw),
        },
        Front::Digit => match number_at(text) {
            Ok(reading) => Ok(reading),
            Err(flaw) => Err(flaw),
        },
        Front::Other => read_rare(ends, text),
    }
}

#[inline(always)]
fn after_minus(signed: bool, text: &str) -> Option<&str> {
    if signed { strip_byte(text, b'-') } else { None }
}

#[cfg_attr(debug_assertions, inline)]
#[cfg_attr(not(debug_assertions), inline(always))]
fn signed_at(text: &str, ends: LineEnds, signed: bool) -> Result<Reading, FlawAt<'_>> {
    match after_minus(signed, text) {
        Some(number) => match negative_at(text, number) {
            Ok(reading) => Ok(reading),
            Err(flaw) => Err(flaw),
        },
        None => match read_at(ends, text) {
            Ok(reading) => Ok(reading),
            Err(flaw) => Err(flaw),
        },
    }
}

pub fn skip_first_char(ends: LineEnds, text: &str) -> &str {
    match split_first_char(ends, text) {
        Some((_, rest)) => rest,
        None => text,
    }
}

pub fn flaw_with_offsets(ends: LineEnds, found: FlawAt<'_>, text: &str) -> Flaw {
    let after = skip_first_char(ends, found.rest);
    Flaw {
        kind: found.kind,
        from: text.len() - found.piece.len(),
        lo: text.len() - found.rest.len(),
        hi: text.len() - after.len(),
    }
}

#[inline(always)]
pub fn read_string(text: &str, inside: &str) -> Result<Body, Flaw> {
    match text_at(LineEnds::Text, Kind::Str, text, inside) {
        Ok(body) => Ok(body),
        Err(found) => Err(flaw_with_offsets(LineEnds::Text, found, text)),
    }
}

#[inline(always)]
pub fn read_character(text: &str, inside: &str) -> Result<Single, Flaw> {
    match unit_at(LineEnds::Text, Kind::Char, text, inside) {
        Ok(single) => Ok(single),
        Err(found) => Err(flaw_with_offsets(LineEnds::Text, found, text)),
    }
}

#[inline(always)]
pub fn read_unsigned_number(text: &str) -> Result<Reading, Flaw> {
    match number_at(text) {
        Ok(reading) => Ok(reading),
        Err(found) => Err(flaw_with_offsets(LineEnds::Text, found, text)),
    }
}

#[inline(never)]
pub fn read_non_digit_start(text: &str) -> Result<Reading, Flaw> {
    match strip_byte(text, b'-') {
        Some(number) => match negative_at(text, number) {
            Ok(reading) => Ok(reading),
            Err(found) => Err(flaw_with_offsets(LineEnds::Text, found, text)),
        },
        None => match other_at(LineEnds::Text, text) {
            Ok(reading) => Ok(reading),
            Err(found) => Err(flaw_with_offsets(LineEnds::Text, found, text)),
        },
    }
}

#[inline(always)]
pub fn read(text: &str, ends: LineEnds, signed: bool) -> Result<Reading, Flaw> {
    match signed_at(text, ends, signed) {
        Ok(reading) => Ok(reading),
        Err(found) => Err(flaw_with_offsets(ends, found, text)),
    }
}
