// Rendered from crates/rl_style/src/rewrite.rt by tools/render, which erases contracts: change that file, and render again.
//! Rewrites a literal of any kind by a style.

use crate::rl_style::cooked::write_cooked;
use crate::rl_style::numbers::write_number;
use crate::rl_style::raw::write_raw;
use crate::rl_style::style::Style;
use crate::rl_lenient::Body;
use crate::rl_lenient::digit_runs::begins_digit;
use crate::rl_lenient::quoted_forms::{QuotedForm, split_opener};
use crate::rl_strict::read_numbers::parse_number_token;
use crate::rl_strict::{Flaw, LineEnds, Reading, explain, read};
use crate::rl_syntax::Kind;
use crate::rl_syntax::slice_writer::put_text;

#[inline]
fn body_of(text: &str, form: QuotedForm, kind: Kind, reading: Reading) -> Body {
    match reading {
        Reading::Text(_, body) => body,
        Reading::Unit(_, body, _) => body,
        _ => unreachable!(),
    }
}

#[inline]
fn write_quoted(
    front: &str,
    text: &str,
    form: QuotedForm,
    kind: Kind,
    reading: Reading,
    style: Style,
    out: &mut [u8],
) -> usize {
    let body = body_of(text, form, kind, reading);
    let inside = &text[body.lo..body.hi];
    let suffix = &text[body.suffix_at..];
    match form {
        QuotedForm::Raw => write_raw(front, text, kind, style, inside, suffix, out),
        _ => write_cooked(text, kind, style, inside, suffix, out),
    }
}

#[inline]
fn rewrite_number(text: &str, style: Style, out: &mut [u8]) -> Result<usize, Flaw> {
    match parse_number_token(text) {
        Ok(number) => Ok(write_number(text, number, style, out)),
        Err(_) => match explain(text) {
            Some(flaw) => Err(flaw),
            None => unreachable!(),
        },
    }
}

#[inline]
pub fn growth(style: Style, text: &str) -> usize {
    if begins_digit(text) {
        2
    } else if style.hidden {
        4
    } else {
        1
    }
}

#[inline]
pub fn rewrite_within(front: &str, text: &str, style: Style, out: &mut [u8]) -> Result<usize, Flaw> {
    if begins_digit(text) {
        return rewrite_number(text, style, out);
    }
    let reading = read(text, LineEnds::Text, false)?;
    match split_opener(text) {
        Some((form, kind, _)) => Ok(write_quoted(front, text, form, kind, reading, style, out)),
        None => Ok(put_text(out, 0, text)),
    }
}

#[cfg(feature = "__rendered")]
#[inline]
pub fn rewrite_into(front: &str, text: &str, style: Style, out: &mut [u8]) -> Result<usize, Flaw> {
    rewrite_within(front, text, style, out)
}
