// Rendered from crates/rl_style/src/case.rt by tools/render, which erases contracts: change that file, and render again.
//! Converts hexadecimal digits to lower or upper case.

use crate::rl_style::style::Case;
use crate::rl_syntax::slice_writer::put_char;
use crate::rl_syntax::text::split_char;

#[inline]
pub(crate) fn cased(case: Option<Case>, c: char) -> char {
    match case {
        Some(Case::Lower) => match c {
            'A'..='F' => (c as u8 + 32) as char,
            _ => c,
        },
        Some(Case::Upper) => match c {
            'a'..='f' => (c as u8 - 32) as char,
            _ => c,
        },
        None => c,
    }
}

#[inline]
pub(crate) fn put_cased(out: &mut [u8], at: usize, case: Option<Case>, text: &str) -> usize {
    let mut end = at;
    let mut rest = text;
    while let Some((c, after)) = split_char(rest) {
        end = put_char(out, end, cased(case, c));
        rest = after;
    }
    end
}
