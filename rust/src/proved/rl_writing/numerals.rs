// Rendered from crates/rl_writing/src/numerals.rt by tools/render, which erases contracts: change that file, and render again.
//! Functions that write the digits of a number in a base, with or without underscores.

use crate::rl_syntax::slice_writer::put_byte;

#[inline]
fn digit(value: u8, upper: bool) -> u8 {
    if value < 10 {
        b'0' + value
    } else if upper {
        b'A' + (value - 10)
    } else {
        b'a' + (value - 10)
    }
}

#[inline]
fn divided(number: u128, by: u8) -> (u128, u8) {
    match u64::try_from(number) {
        Ok(short) => {
            let by = u64::from(by);
            (u128::from(short / by), (short % by) as u8)
        }
        Err(_) => {
            let by = u128::from(by);
            (number / by, (number % by) as u8)
        }
    }
}

#[inline]
pub fn put_digits_reversed(value: u128, radix: u8, upper: bool, room: &mut [u8]) -> usize {
    let mut left = value;
    let mut count = 0;
    loop {
        let (rest, last) = divided(left, radix);
        count = put_byte(room, count, digit(last, upper));
        left = rest;
        if left == 0 {
            return count;
        }
    }
}

#[inline]
pub fn digit_group_size(group: usize, least: usize, count: usize) -> usize {
    if count < least { 0 } else { group }
}

#[inline]
pub fn is_digit_group_end(group: usize, digits: usize) -> bool {
    group > 0 && digits > 0 && digits % group == 0
}

#[inline]
pub fn put_grouped(out: &mut [u8], at: usize, digits: &[u8], group: usize) -> usize {
    let mut end = at;
    let mut left = digits.len();
    while left > 0 {
        left -= 1;
        end = put_byte(out, end, digits[left]);
        if is_digit_group_end(group, left) {
            end = put_byte(out, end, b'_');
        }
    }
    end
}
