// Rendered from crates/rl_lexer/src/lexeme/quotes.rt by tools/render, which erases contracts: change that file, and render again.
//! Functions that find the end of a string, character, byte or raw literal.

use super::suffix::after_suffix;
use crate::rl_syntax::classes::skip_hashes;
use crate::rl_syntax::scan::{Marks, split_after_mark};
use crate::rl_syntax::text::{after_prefix, before, begins_with_char, split_char, without_first_char};

pub(crate) fn after_quoted(text: &str) -> Option<&str> {
    let rest = after_quote(text)?;
    Some(after_suffix(rest))
}

pub(crate) fn after_character(text: &str) -> Option<&str> {
    let rest = after_single(text)?;
    Some(after_suffix(rest))
}

pub(crate) fn after_raw_literal(text: &str) -> Option<&str> {
    let opener = skip_hashes(text);
    let rest = after_raw(before(text, opener), without_first_char(opener))?;
    Some(after_suffix(rest))
}

pub(crate) fn begins_hashed_quote(text: &str) -> bool {
    begins_with_char(skip_hashes(text), '"')
}

#[inline(never)]
fn after_quote(text: &str) -> Option<&str> {
    let mut rest = text;
    while let Some((mark, following)) = split_after_mark(Marks::from_two_bytes(b'"', b'\\'), rest) {
        if mark == b'"' {
            return Some(following);
        }
        let (_, more) = split_char(following)?;
        rest = more;
    }
    None
}

#[inline(never)]
fn after_raw<'t>(hashes: &str, text: &'t str) -> Option<&'t str> {
    let mut rest = text;
    while let Some((_, following)) = split_after_mark(Marks::from_two_bytes(b'"', b'"'), rest) {
        if let Some(end) = after_prefix(hashes, following) {
            return Some(end);
        }
        rest = following;
    }
    None
}

fn after_single(text: &str) -> Option<&str> {
    let (c, following) = split_char(text)?;
    let (second, more) = split_char(following)?;
    if c == '\\' {
        after_apostrophe(more)
    } else if second == '\'' {
        Some(more)
    } else {
        None
    }
}

fn after_apostrophe(text: &str) -> Option<&str> {
    let mut rest = text;
    while let Some((c, following)) = split_char(rest) {
        if c == '\'' {
            return Some(following);
        }
        if c == '\n' {
            return None;
        }
        rest = following;
    }
    None
}
