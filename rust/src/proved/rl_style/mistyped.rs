// Rendered from crates/rl_style/src/mistyped.rt by tools/render, which erases contracts: change that file, and render again.
//! Recognizes numbers whose suffix may be mistyped: `2_32` may be meant as `2_i32`.

use crate::rl_syntax::text::split_char;

#[inline]
pub(crate) fn contains_either(text: &str, first: char, second: char) -> bool {
    let mut rest = text;
    while let Some((c, after)) = split_char(rest) {
        if c == first || c == second {
            return true;
        }
        rest = after;
    }
    false
}

#[inline]
fn is_width(text: &str) -> bool {
    match split_char(text) {
        Some((c, after)) => match split_char(after) {
            Some((d, rest)) => {
                matches!((c, d), ('1', '6') | ('3', '2') | ('6', '4')) && split_char(rest).is_none()
            }
            None => c == '8',
        },
        None => false,
    }
}

#[inline]
fn ends_with_width(text: &str) -> bool {
    let mut rest = text;
    while let Some((c, after)) = split_char(rest) {
        if c == '_' && is_width(after) {
            return true;
        }
        rest = after;
    }
    false
}

#[inline]
pub(crate) fn is_mistyped(suffix: &str, text: &str) -> bool {
    split_char(suffix).is_none() && ends_with_width(text)
}

#[inline]
pub(crate) fn is_mistyped_float(suffix: &str, text: &str) -> bool {
    is_mistyped(suffix, text) && contains_either(text, 'e', 'E')
}
