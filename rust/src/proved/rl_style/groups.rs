// Rendered from crates/rl_style/src/groups.rt by tools/render, which erases contracts: change that file, and render again.
//! Rewrites the digits of numbers in groups, with underscores between the groups.

use crate::rl_style::characters::{Manner, begins_base_letter, put_character, put_numeral};
use crate::rl_style::style::{DigitGroups, Style};
use crate::rl_syntax::slice_writer::put_byte;
use crate::rl_syntax::text::split_char;
use crate::rl_writing::{digit_group_size, is_digit_group_end};

#[inline]
fn base_group(groups: DigitGroups, base: u32) -> usize {
    match base {
        2 => groups.binary,
        8 => groups.octal,
        16 => groups.hexadecimal,
        _ => groups.decimal,
    }
}

#[inline]
pub(crate) fn group_size(style: Style, base: u32, suffix: &str) -> usize {
    match style.digit_groups {
        Some(groups) if !begins_base_letter(suffix) => base_group(groups, base),
        _ => 0,
    }
}

#[inline]
fn least_digits(style: Style) -> usize {
    match style.digit_groups {
        Some(groups) => groups.least,
        None => 0,
    }
}

#[inline]
fn ends(from_first: bool, size: usize, count: usize, left: usize) -> bool {
    if from_first {
        left > 0 && is_digit_group_end(size, count - left)
    } else {
        is_digit_group_end(size, left)
    }
}

#[inline]
fn count_digits(run: &str) -> usize {
    let mut count = 0;
    let mut rest = run;
    while let Some((c, after)) = split_char(rest) {
        if c != '_' {
            count += 1;
        }
        rest = after;
    }
    count
}

#[inline]
fn put_digit(out: &mut [u8], at: usize, manner: Manner, digit: char, ends: bool) -> usize {
    let end = put_character(out, at, manner, digit);
    if ends {
        return put_byte(out, end, b'_');
    }
    end
}

#[inline]
fn put_grouped(out: &mut [u8], at: usize, manner: Manner, from_first: bool, run: &str) -> usize {
    let count = count_digits(run);
    let size = digit_group_size(manner.size, least_digits(manner.style), count);
    let mut left = count;
    let mut end = at;
    let mut rest = run;
    while let Some((c, after)) = split_char(rest) {
        if c != '_' {
            left -= 1;
            end = put_digit(out, end, manner, c, ends(from_first, size, count, left));
        } else if left == 0 {
            end = put_character(out, end, manner, '_');
        }
        rest = after;
    }
    end
}

#[inline]
pub(crate) fn put_digit_run(
    out: &mut [u8],
    at: usize,
    manner: Manner,
    from_first: bool,
    run: &str,
) -> usize {
    if manner.size == 0 {
        return put_numeral(out, at, manner, run);
    }
    put_grouped(out, at, manner, from_first, run)
}
