// Rendered from crates/rl_flaws/src/closings.rt by tools/render, which erases contracts: change that file, and render again.
//! Finds the closing quote of an invalid character or byte literal, as rustc does.

use crate::rl_strict::LineEnds;
use crate::rl_strict::walk_units::split_first_char;
use crate::rl_syntax::text::{begins_with_char, strip_byte};

#[inline]
fn ends_search(c: char, following: &str) -> bool {
    c == '/' || (c == '\n' && !begins_with_char(following, '\''))
}

#[inline]
fn after_part(ends: LineEnds, c: char, following: &str) -> Option<&str> {
    if c == '\\' {
        let (_, more) = split_first_char(ends, following)?;
        return Some(more);
    }
    if ends_search(c, following) {
        None
    } else {
        Some(following)
    }
}

#[inline]
fn next_quote(ends: LineEnds, text: &str) -> Option<&str> {
    let mut rest = text;
    while let Some((c, following)) = split_first_char(ends, rest) {
        if c == '\'' {
            return Some(rest);
        }
        rest = after_part(ends, c, following)?;
    }
    None
}

#[inline]
pub fn closing_quote(ends: LineEnds, text: &str) -> Option<&str> {
    let Some(second) = strip_byte(text, b'\'') else {
        return next_quote(ends, text);
    };
    if begins_with_char(second, '\'') {
        Some(second)
    } else {
        next_quote(ends, text)
    }
}
