// Rendered from crates/rl_strict/src/strict.rt by tools/render, which erases contracts: change that file, and render again.
//! The characters that raw strings of Rust's grammar may contain, and their closing delimiter.

use crate::rl_lenient::units::split_before_mark_or_non_ascii;
use crate::rl_syntax::Kind;
use crate::rl_syntax::scan::{Marks, split_before_mark};
use crate::rl_syntax::text::after_prefix;

const INSIDE_STRING: Marks = Marks {
    first: b'"',
    second: b'\r',
    third: b'\r',
    fourth: b'\r',
};

const INSIDE_C_STRING: Marks = Marks {
    first: b'"',
    second: b'\r',
    third: 0,
    fourth: 0,
};

pub fn is_raw_character(kind: Kind, c: char) -> bool {
    match kind {
        Kind::Str => c != '\r',
        Kind::ByteStr => c.is_ascii() && c != '\r',
        Kind::CStr => c != '\0' && c != '\r',
        _ => false,
    }
}

pub fn after_closer<'t>(hashes: &str, c: char, after: &'t str) -> Option<&'t str> {
    if c == '"' {
        after_prefix(hashes, after)
    } else {
        None
    }
}

#[inline]
pub fn skip_raw_characters(kind: Kind, text: &str) -> &str {
    match kind {
        Kind::Str => split_before_mark(INSIDE_STRING, text).1,
        Kind::ByteStr => split_before_mark_or_non_ascii(INSIDE_STRING, text).1,
        Kind::CStr => split_before_mark(INSIDE_C_STRING, text).1,
        _ => text,
    }
}
