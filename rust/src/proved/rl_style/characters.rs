// Rendered from crates/rl_style/src/characters.rt by tools/render, which erases contracts: change that file, and render again.
//! Rewrites the characters of numbers.

use crate::rl_style::case::cased;
use crate::rl_style::style::{Case, Style};
use crate::rl_syntax::slice_writer::put_char;
use crate::rl_syntax::text::split_char;

#[derive(Clone, Copy)]
pub(crate) struct Manner {
    pub style: Style,
    pub drops: bool,
    pub hex: bool,
    pub size: usize,
}

#[inline]
pub(crate) fn begins_base_letter(text: &str) -> bool {
    matches!(split_char(text), Some(('x' | 'o' | 'b', _)))
}

#[inline]
fn exponent_letter(case: Option<Case>, c: char) -> char {
    match case {
        Some(Case::Lower) => match c {
            'E' => 'e',
            _ => c,
        },
        Some(Case::Upper) => match c {
            'e' => 'E',
            _ => c,
        },
        None => c,
    }
}

#[inline]
fn number_character(style: Style, drops: bool, hex: bool, c: char) -> Option<char> {
    match c {
        '_' if drops => None,
        '+' if style.exponent_plus && !hex => None,
        _ if hex => Some(cased(style.hex_digits, c)),
        _ => Some(exponent_letter(style.exponent_letter, c)),
    }
}

#[inline]
pub(crate) fn put_character(out: &mut [u8], at: usize, manner: Manner, c: char) -> usize {
    match number_character(manner.style, manner.drops, manner.hex, c) {
        Some(written) => put_char(out, at, written),
        None => at,
    }
}

#[inline]
pub(crate) fn put_numeral(out: &mut [u8], at: usize, manner: Manner, numeral: &str) -> usize {
    let mut end = at;
    let mut rest = numeral;
    while let Some((c, after)) = split_char(rest) {
        end = put_character(out, end, manner, c);
        rest = after;
    }
    end
}
