// Rendered from crates/rl_style/src/codes.rt by tools/render, which erases contracts: change that file, and render again.
//! Rewrites the digits of numeric escapes: `\x` and `\u{..}`.

use crate::rl_style::case::{cased, put_cased};
use crate::rl_style::numbers::skip_padding;
use crate::rl_style::style::{Case, Style};
use crate::rl_syntax::slice_writer::{put_byte, put_char, put_text};
use crate::rl_syntax::text::{after_prefix, split_char};

#[inline]
fn put_bare(out: &mut [u8], at: usize, case: Option<Case>, text: &str) -> usize {
    let mut end = at;
    let mut rest = text;
    while let Some((c, after)) = split_char(rest) {
        if c != '_' {
            end = put_char(out, end, cased(case, c));
        }
        rest = after;
    }
    end
}

#[inline]
fn begins_close(text: &str) -> bool {
    matches!(split_char(text), Some(('}', _)))
}

#[inline]
fn put_code(out: &mut [u8], at: usize, case: Option<Case>, inside: &str) -> usize {
    let Some(('0' | '_', after)) = split_char(inside) else {
        return put_bare(out, at, case, inside);
    };
    let rest = skip_padding(after);
    if begins_close(rest) {
        let end = put_byte(out, at, b'0');
        return put_bare(out, end, case, rest);
    }
    put_bare(out, at, case, rest)
}

#[inline]
pub(crate) fn put_digits(out: &mut [u8], at: usize, style: Style, unit: &str) -> usize {
    if !style.code_digits {
        return put_cased(out, at, style.escape_digits, unit);
    }
    match after_prefix("\\u{", unit) {
        Some(inside) => {
            let end = put_text(out, at, "\\u{");
            put_code(out, end, style.escape_digits, inside)
        }
        None => put_cased(out, at, style.escape_digits, unit),
    }
}
