// Rendered from crates/rl_lenient/src/found.rt by tools/render, which erases contracts: change that file, and render again.
//! The parse result of a text: the literal's kind, the byte offsets of its parts, and the value of an integer, `bool`,
//! character or byte. A literal is split at these offsets, and isn't parsed again.

#[cfg(any(feature = "sources", feature = "settings"))]
use crate::rl_lenient::digit_runs::is_negative;
use crate::rl_lenient::digits::{is_plain_float, is_plain_integer};
use crate::rl_lenient::number_forms::{Number, read_number};
#[cfg(feature = "__rendered")]
use crate::rl_lenient::number_forms::{float_suffix, integer_magnitude_and_suffix};
use crate::rl_lenient::quoted_forms::{
    QuotedForm, begins_character, find_bare_character, find_character, find_cooked, find_raw,
    find_single, split_opener,
};
use crate::rl_syntax::Kind;
use crate::rl_syntax::text::before;

#[derive(Clone, Copy)]
pub struct Body {
    pub lo: usize,
    pub hi: usize,
    pub suffix_at: usize,
    pub plain: bool,
}

impl Body {
    #[inline(always)]
    pub(crate) fn up_to(end: usize, plain: bool) -> Body {
        Body {
            lo: 0,
            hi: end,
            suffix_at: end,
            plain,
        }
    }
}

#[derive(Clone, Copy)]
pub struct Found {
    pub magnitude: u128,
    pub body: Body,
    pub kind: Kind,
    pub truth: bool,
    pub unit: u32,
}

#[cfg(feature = "__rendered")]
#[derive(Clone, Copy, PartialEq, Eq, Debug)]
pub struct Parts<'t> {
    pub kind: Kind,
    pub body: &'t str,
    pub suffix: &'t str,
}

impl Found {
    #[cfg(feature = "__rendered")]
    #[inline(always)]
    pub fn body_in<'t>(&self, text: &'t str) -> &'t str {
        &text[self.body.lo..self.body.hi]
    }

    #[inline(always)]
    pub fn suffix_in<'t>(&self, text: &'t str) -> &'t str {
        &text[self.body.suffix_at..]
    }

    #[cfg(feature = "__rendered")]
    #[inline(always)]
    pub(crate) fn parts<'t>(&self, text: &'t str) -> Parts<'t> {
        Parts {
            kind: self.kind,
            body: self.body_in(text),
            suffix: self.suffix_in(text),
        }
    }
}

#[inline(always)]
fn integer_found<'t>(text: &'t str, suffix: &'t str, magnitude: u128) -> Found {
    let body = before(text, suffix);
    Found {
        kind: Kind::Int,
        body: Body::up_to(body.len(), is_plain_integer(body)),
        magnitude,
        truth: false,
        unit: 0,
    }
}

#[inline(always)]
fn float_found<'t>(text: &'t str, suffix: &'t str) -> Found {
    let body = before(text, suffix);
    Found {
        kind: Kind::Float,
        body: Body::up_to(body.len(), is_plain_float(body)),
        magnitude: 0,
        truth: false,
        unit: 0,
    }
}

#[cfg(feature = "__rendered")]
#[inline]
pub fn parse_int_literal(text: &str) -> Option<Option<Found>> {
    let integer = integer_magnitude_and_suffix(text)?;
    match integer.magnitude {
        Some(magnitude) => Some(Some(integer_found(text, integer.suffix, magnitude))),
        None => Some(None),
    }
}

#[cfg(feature = "__rendered")]
#[inline]
pub fn parse_float_literal(text: &str) -> Option<Found> {
    let suffix = float_suffix(text)?;
    Some(float_found(text, suffix))
}

#[inline]
fn parse_number_literal(text: &str) -> Option<Found> {
    match read_number(text)? {
        Number::Integer(magnitude, suffix) => {
            return Some(integer_found(text, suffix, magnitude));
        }
        Number::Float(suffix) => return Some(float_found(text, suffix)),
    }
}

#[cfg(any(feature = "sources", feature = "settings"))]
#[inline(always)]
pub(crate) fn parse_unsigned_literal(text: &str) -> Option<Found> {
    if is_negative(text) {
        return None;
    }
    parse_number_literal(text)
}

#[cfg(any(feature = "sources", feature = "settings"))]
#[inline]
pub fn parse_with_added_minus(text: &str) -> Option<Found> {
    let found = parse_unsigned_literal(text)?;
    Some(Found {
        kind: found.kind,
        body: Body::up_to(found.body.suffix_at + 1, found.body.plain),
        magnitude: found.magnitude,
        truth: false,
        unit: 0,
    })
}

#[inline]
pub fn parse_bool_literal(text: &str) -> Option<Found> {
    let truth = bool_of(text)?;
    Some(Found {
        kind: Kind::Bool,
        body: Body::up_to(text.len(), false),
        magnitude: 0,
        truth,
        unit: 0,
    })
}

#[cfg(feature = "__rendered")]
#[inline]
pub fn parse_known_literal(text: &str) -> Found {
    match parse_literal(text) {
        Some(found) => found,
        None => unreachable!(),
    }
}

#[cfg_attr(debug_assertions, inline)]
#[cfg_attr(not(debug_assertions), inline(always))]
pub fn parse_literal(text: &str) -> Option<Found> {
    if begins_character(text) {
        if let Some(found) = find_bare_character(text) {
            return Some(found);
        }
        return find_character(text);
    }
    if begins_number(text) {
        return parse_number_literal(text);
    }
    find_word_or_quoted(text)
}

#[inline]
fn find_word_or_quoted(text: &str) -> Option<Found> {
    let Some((form, kind, inside)) = split_opener(text) else {
        return parse_bool_literal(text);
    };
    match form {
        QuotedForm::Cooked => return find_cooked(kind, text, inside),
        QuotedForm::Single => return find_single(kind, text, inside),
        QuotedForm::Raw => return find_raw(kind, text, inside),
    }
}

#[inline]
pub fn bool_of(text: &str) -> Option<bool> {
    match text {
        "true" => Some(true),
        "false" => Some(false),
        _ => None,
    }
}

#[inline]
fn is_number_front(bytes: &[u8]) -> bool {
    !bytes.is_empty() && (bytes[0] == b'-' || bytes[0].is_ascii_digit())
}

#[inline(always)]
pub fn begins_number(text: &str) -> bool {
    is_number_front(text.as_bytes())
}

#[cfg(feature = "__rendered")]
#[inline]
pub fn shape(text: &str) -> Option<Parts<'_>> {
    let found = parse_literal(text)?;
    Some(found.parts(text))
}
