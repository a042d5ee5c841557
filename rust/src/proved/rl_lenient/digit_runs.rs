// Rendered from crates/rl_lenient/src/digit_runs.rt by tools/render, which erases contracts: change that file, and render again.
//! Functions that parse sequences of digits and underscores, the minus before them and the suffix after them. The
//! number that the digits represent is computed within 128 bits.

use crate::rl_syntax::ident::xid_ok;
use crate::rl_syntax::text::{split_ascii, split_char};

#[derive(Clone, Copy)]
pub struct DigitRun<'t> {
    pub has_digit: bool,
    pub magnitude: Option<u128>,
    pub rest: &'t str,
}

#[derive(Clone, Copy)]
pub struct Skipped<'t> {
    pub has_digit: bool,
    pub rest: &'t str,
}

fn digit_value(byte: u8) -> u32 {
    let digit = byte.wrapping_sub(b'0');
    if digit < 10 {
        return u32::from(digit);
    }
    match byte {
        b'a'..=b'z' => u32::from(byte - b'a' + 10),
        b'A'..=b'Z' => u32::from(byte - b'A' + 10),
        _ => 36,
    }
}

const MAY_GROW: u64 = 1 << 58;

#[derive(Clone, Copy)]
struct FirstDigits {
    spelled: u64,
    end: usize,
}

#[cfg_attr(debug_assertions, inline)]
#[cfg_attr(not(debug_assertions), inline(always))]
fn first_digits(text: &str, radix: u32) -> FirstDigits {
    let bytes = text.as_bytes();
    let mut spelled = 0_u64;
    let mut end = 0;
    while end < bytes.len() && spelled < MAY_GROW {
        let digit = digit_value(bytes[end]);
        if digit >= radix {
            break;
        }
        spelled = spelled * u64::from(radix) + u64::from(digit);
        end += 1;
    }
    FirstDigits { spelled, end }
}

#[cfg_attr(debug_assertions, inline)]
#[cfg_attr(not(debug_assertions), inline(always))]
fn read_digit_run_in(text: &str, radix: u32) -> DigitRun<'_> {
    let bytes = text.as_bytes();
    let first = first_digits(text, radix);
    let mut has_digit = first.end > 0;
    let mut tally = Tally::of(first.spelled);
    let mut at = first.end;
    while at < bytes.len() {
        let byte = bytes[at];
        let digit = digit_value(byte);
        if digit < radix {
            has_digit = true;
            tally = tally.append_digit(radix, digit);
        } else if byte != b'_' {
            break;
        }
        at += 1;
    }
    DigitRun {
        has_digit,
        magnitude: tally.magnitude(),
        rest: &text[at..],
    }
}

#[inline(always)]
pub fn read_digit_run(text: &str, radix: u32) -> DigitRun<'_> {
    if radix == 10 {
        read_digit_run_in(text, 10)
    } else {
        read_digit_run_in(text, radix)
    }
}

#[inline(always)]
fn digits_len(text: &str) -> usize {
    let bytes = text.as_bytes();
    let mut len = 0;
    while len < bytes.len() && bytes[len].is_ascii_digit() {
        len += 1;
    }
    len
}

#[cfg_attr(debug_assertions, inline)]
#[cfg_attr(not(debug_assertions), inline(always))]
pub fn skip_digits(text: &str) -> Skipped<'_> {
    let bytes = text.as_bytes();
    let mut at = digits_len(text);
    let mut has_digit = at > 0;
    while at < bytes.len() {
        let byte = bytes[at];
        if byte.is_ascii_digit() {
            has_digit = true;
        } else if byte != b'_' {
            break;
        }
        at += 1;
    }
    Skipped {
        has_digit,
        rest: &text[at..],
    }
}

#[inline(always)]
pub(crate) fn is_suffix(text: &str) -> bool {
    match split_char(text) {
        Some((first, _)) => first != '_' && xid_ok(text),
        None => true,
    }
}

#[inline]
pub(crate) fn is_exponent_suffix(text: &str) -> bool {
    match split_char(text) {
        Some(('e' | 'E', rest)) => {
            let power = skip_digits(rest);
            power.has_digit && is_suffix(power.rest)
        }
        _ => false,
    }
}

pub fn is_negative(text: &str) -> bool {
    matches!(split_ascii(text), Some((b'-', _)))
}

pub fn after_minus(text: &str) -> &str {
    match split_ascii(text) {
        Some((b'-', rest)) => rest,
        _ => text,
    }
}

pub fn begins_digit(text: &str) -> bool {
    match split_ascii(text) {
        Some((first, _)) => (first as char).is_ascii_digit(),
        None => false,
    }
}

pub struct Tally {
    front: Option<u128>,
    last: u64,
    scale: u64,
}

impl Tally {
    pub(crate) fn of(spelled: u64) -> Tally {
        Tally {
            front: Some(0),
            last: spelled,
            scale: spelled + 1,
        }
    }

    #[cfg_attr(debug_assertions, inline)]
    #[cfg_attr(not(debug_assertions), inline(always))]
    pub(crate) fn append_digit(self, radix: u32, digit: u32) -> Tally {
        match self.scale.checked_mul(u64::from(radix)) {
            Some(scale) => Tally {
                front: self.front,
                last: self.last * u64::from(radix) + u64::from(digit),
                scale,
            },
            None => Tally {
                front: self.magnitude(),
                last: u64::from(digit),
                scale: u64::from(radix),
            },
        }
    }

    pub fn magnitude(&self) -> Option<u128> {
        if self.front == Some(0) {
            return Some(u128::from(self.last));
        }
        self.front?
            .checked_mul(u128::from(self.scale))?
            .checked_add(u128::from(self.last))
    }
}
