// Rendered from crates/rl_writing/src/integers.rt by tools/render, which erases contracts: change that file, and render again.
//! A function that writes an integer literal, and the style in which it writes.

use crate::rl_writing::base::Base;
use crate::rl_writing::numerals::{digit_group_size, put_digits_reversed, put_grouped};
use crate::rl_syntax::IntegerType;
use crate::rl_syntax::slice_writer::put_text;

#[derive(Clone, Copy)]
pub struct IntegerStyle {
    pub base: Base,
    pub upper: bool,
    pub group: usize,
    pub least: usize,
}

#[inline]
fn suffix_of(suffix: Option<IntegerType>) -> &'static str {
    match suffix {
        Some(name) => name.name(),
        None => "",
    }
}

#[inline]
pub fn write_integer_into(
    value: u128,
    style: IntegerStyle,
    suffix: Option<IntegerType>,
    out: &mut [u8],
) -> usize {
    let mut room = [0; 128];
    let count = put_digits_reversed(value, style.base.radix(), style.upper, &mut room);
    let at = put_text(out, 0, style.base.prefix());
    let size = digit_group_size(style.group, style.least, count);
    let at = put_grouped(out, at, &room[..count], size);
    put_text(out, at, suffix_of(suffix))
}
