// Rendered from crates/rl_syntax/src/classes.rt by tools/render, which erases contracts: change that file, and render again.
//! Classes of characters, and functions that return the text after its leading characters of one class.

use crate::rl_syntax::characters::{is_id_continue, is_white, is_xid_continue};
#[cfg(any(feature = "sources", feature = "settings"))]
use crate::rl_syntax::lanes::run_len;
use crate::rl_syntax::text::{split_ascii, split_char};
#[cfg(any(feature = "sources", feature = "settings"))]
use crate::rl_syntax::text::strip_byte;

#[cfg_attr(not(feature = "__rendered"), expect(dead_code, reason = "SuffixContinue, Unquoted, Ascii, NonNul: contracts alone speak of their runs"))]
#[derive(Clone, Copy)]
pub enum CharClass {
    Continue,
    Numeral,
    Underscore,
    White,
    Hash,
    Blank,
    StrictBlank,
    SuffixContinue,
    Unquoted,
    Ascii,
    NonNul,
}

#[cfg_attr(debug_assertions, inline)]
#[cfg_attr(not(debug_assertions), inline(always))]
fn is_in_class(class: CharClass, c: char) -> bool {
    match class {
        CharClass::Continue => is_id_continue(c),
        CharClass::Numeral => c.is_ascii_digit() || c == '_',
        CharClass::Underscore => c == '_',
        CharClass::White => is_white(c),
        CharClass::Hash => c == '#',
        CharClass::Blank => matches!(c, ' ' | '\t' | '\n' | '\r'),
        CharClass::StrictBlank => matches!(c, ' ' | '\t' | '\n'),
        CharClass::SuffixContinue => is_xid_continue(c),
        CharClass::Unquoted => c != '"',
        CharClass::Ascii => c.is_ascii(),
        CharClass::NonNul => c != '\0',
    }
}

#[inline(always)]
pub fn skip_class(class: CharClass, text: &str) -> &str {
    let mut rest = text;
    while let Some((byte, following)) = split_ascii(rest) {
        if !is_in_class(class, byte as char) {
            return rest;
        }
        rest = following;
    }
    skip_wide_class(class, rest)
}

#[inline(always)]
pub fn skip_hashes(text: &str) -> &str {
    skip_class(CharClass::Hash, text)
}

#[cfg(any(feature = "sources", feature = "settings"))]
#[inline(always)]
fn run_class<const WORD: bool>() -> CharClass {
    if WORD {
        CharClass::Continue
    } else {
        CharClass::White
    }
}

#[cfg(any(feature = "sources", feature = "settings"))]
#[inline(always)]
fn skip_run<const WORD: bool>(text: &str) -> &str {
    let rest = &text[run_len::<WORD>(text.as_bytes())..];
    match split_ascii(rest) {
        Some(_) => rest,
        None => skip_wide_class(run_class::<WORD>(), rest),
    }
}

#[cfg(any(feature = "sources", feature = "settings"))]
#[inline(always)]
pub fn skip_id_continue(text: &str) -> &str {
    skip_run::<true>(text)
}

#[cfg(any(feature = "sources", feature = "settings"))]
#[cfg_attr(debug_assertions, inline)]
#[cfg_attr(not(debug_assertions), inline(always))]
pub fn skip_white(text: &str) -> &str {
    if begins_nonblank(text) {
        return text;
    }
    if let Some(following) = strip_byte(text, b' ') {
        if begins_nonblank(following) {
            return following;
        }
    }
    skip_white_run(text)
}

#[cfg(any(feature = "sources", feature = "settings"))]
#[inline(always)]
fn begins_nonblank(text: &str) -> bool {
    match split_ascii(text) {
        Some((byte, _)) => byte > b' ',
        None => false,
    }
}

#[cfg(any(feature = "sources", feature = "settings"))]
#[inline(never)]
fn skip_white_run(text: &str) -> &str {
    skip_run::<false>(text)
}

#[inline(never)]
fn skip_wide_class(class: CharClass, text: &str) -> &str {
    let mut rest = text;
    while let Some((c, following)) = split_char(rest) {
        if !is_in_class(class, c) {
            break;
        }
        rest = following;
    }
    rest
}
