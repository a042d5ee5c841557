// Rendered from crates/rl_scan/src/widths.rt by tools/render, which erases contracts: change that file, and render again.
//! The columns that characters take on a terminal, and the characters that take variation selectors.

use crate::rl_scan::selector_rows::BASES;
use crate::rl_scan::width_rows::WIDTHS;

fn row_value(rows: &[(u32, u32, usize)], other: usize, code: u32) -> usize {
    let mut rest = rows;
    for _ in 0..64 {
        let (front, back) = rest.split_at(rest.len() / 2);
        let Some((row, after)) = back.split_first() else {
            return other;
        };
        if row.1 < code {
            rest = after;
        } else if code < row.0 {
            rest = front;
        } else {
            return row.2;
        }
    }
    other
}

pub(crate) fn width_of(c: char) -> usize {
    let code = c as u32;
    if code < 128 {
        return 1;
    }
    row_value(&WIDTHS, 1, code)
}

pub(crate) fn is_variation_selector(c: char) -> bool {
    matches!(c, '\u{fe00}'..='\u{fe0f}' | '\u{e0100}'..='\u{e01ef}')
}

pub(crate) fn takes_variation_selector(base: char, selector: char) -> bool {
    let number = row_value(&BASES, 0, base as u32);
    match selector {
        '\u{fe00}'..='\u{fe02}' => number >= 2,
        '\u{fe0e}'..='\u{fe0f}' => number == 1 || number == 3,
        '\u{e0100}'..='\u{e01ef}' => number == 4,
        _ => false,
    }
}
