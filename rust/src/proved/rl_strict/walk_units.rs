// Rendered from crates/rl_strict/src/walk_units.rt by tools/render, which erases contracts: change that file, and render again.
//! Skips the characters and escapes of a quoted literal, where a CR LF may be read as LF.

use crate::rl_strict::line_ends::LineEnds;
use crate::rl_lenient::units::{parse_escape, split_plain};
use crate::rl_syntax::Kind;
use crate::rl_syntax::classes::{CharClass, skip_class};
use crate::rl_syntax::text::{ascii_at, split_char, strip_byte};

#[inline(always)]
fn after_cr_lf(text: &str) -> Option<&str> {
    let line_feed = strip_byte(text, b'\r')?;
    strip_byte(line_feed, b'\n')
}

#[inline(always)]
fn after_line_end(ends: LineEnds, text: &str) -> Option<&str> {
    match ends {
        LineEnds::Text => None,
        LineEnds::File => match after_cr_lf(text) {
            Some(rest) => Some(rest),
            None => None,
        },
    }
}

#[inline(always)]
pub fn split_first_char(ends: LineEnds, text: &str) -> Option<(char, &str)> {
    match after_line_end(ends, text) {
        Some(rest) => Some(('\n', rest)),
        None => {
            let (first, rest) = split_char(text)?;
            Some((first, rest))
        }
    }
}

fn skip_blanks(ends: LineEnds, text: &str) -> &str {
    let mut rest = skip_class(CharClass::StrictBlank, text);
    while let Some(after) = after_line_end(ends, rest) {
        rest = skip_class(CharClass::StrictBlank, after);
    }
    rest
}

#[cfg_attr(debug_assertions, inline)]
#[cfg_attr(not(debug_assertions), inline(always))]
fn skip_escape(ends: LineEnds, kind: Kind, text: &str, at: usize) -> Option<&str> {
    let (first, after) = ascii_at(text, at)?;
    if first == b'\n' {
        return Some(skip_blanks(ends, &text[after..]));
    }
    if first == b'\r' {
        let blanks = after_line_end(ends, &text[at..])?;
        return Some(skip_blanks(ends, blanks));
    }
    let (_, rest) = parse_escape(kind, text, at)?;
    Some(rest)
}

#[inline(always)]
fn skip_escaped(ends: LineEnds, kind: Kind, text: &str) -> Option<&str> {
    let (first, at) = ascii_at(text, 0)?;
    if first == b'\\' {
        return skip_escape(ends, kind, text, at);
    }
    match after_line_end(ends, text) {
        Some(rest) => Some(rest),
        None => None,
    }
}

#[inline(always)]
fn skip_bare(ends: LineEnds, kind: Kind, text: &str) -> &str {
    let (_, rest) = split_plain(kind, text);
    rest
}

#[inline(always)]
fn skip_units_of(ends: LineEnds, kind: Kind, text: &str) -> &str {
    let mut rest = skip_bare(ends, kind, text);
    while let Some(after) = skip_escaped(ends, kind, rest) {
        rest = skip_bare(ends, kind, after);
    }
    rest
}

#[inline(never)]
fn skip_text_units(kind: Kind, text: &str) -> &str {
    match kind {
        Kind::Str => skip_units_of(LineEnds::Text, Kind::Str, text),
        _ => skip_units_of(LineEnds::Text, kind, text),
    }
}

#[inline]
fn skip_file_units(kind: Kind, text: &str) -> &str {
    skip_units_of(LineEnds::File, kind, text)
}

#[inline(always)]
pub(crate) fn skip_units(ends: LineEnds, kind: Kind, text: &str) -> &str {
    match ends {
        LineEnds::Text => skip_text_units(kind, text),
        LineEnds::File => skip_file_units(kind, text),
    }
}
