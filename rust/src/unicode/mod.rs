//! Tests whether a character can begin or continue an identifier, by the properties XID_Start and XID_Continue of Unicode 18.

mod runs;

use runs::STEPS;

/// The table of classes of non-ASCII characters. The characters are divided into sequences of one class. Each number is the first
/// character of a sequence, times four, plus its class.
static RUNS: [u32; STEPS.len()] = sums(STEPS);

/// Returns the sum of the numbers up to each number.
const fn sums<const N: usize>(mut numbers: [u32; N]) -> [u32; N] {
    let mut at = 1;
    while at < N {
        numbers[at] += numbers[at - 1];
        at += 1;
    }
    numbers
}

/// The class of a character that can continue an identifier, but can't begin one.
const CONTINUE: u32 = 1;

/// The class of a character that can begin and continue an identifier.
const START: u32 = 2;

/// Returns the class of a non-ASCII character: `START`, `CONTINUE`, or 0 if it can't be in an identifier.
fn class_of(c: char) -> u32 {
    let passed = RUNS.partition_point(|run| run >> 2 <= u32::from(c));
    match passed.checked_sub(1) {
        Some(at) => RUNS[at] & 3,
        None => 0,
    }
}

/// Whether the character has Unicode's property XID_Start.
pub(crate) fn is_xid_start(c: char) -> bool {
    if c.is_ascii() {
        c.is_ascii_alphabetic()
    } else {
        class_of(c) == START
    }
}

/// Whether the character has Unicode's property XID_Continue.
pub(crate) fn is_xid_continue(c: char) -> bool {
    if c.is_ascii() {
        c.is_ascii_alphanumeric() || c == '_'
    } else {
        class_of(c) >= CONTINUE
    }
}

#[cfg(test)]
mod tests {
    use super::*;

    /// The number of characters in each class, and a hash of all classes (a sum in base 31). `tools/unicode_runs` prints these
    /// values.
    const COUNTED: ([u32; 3], u64) = ([949983, 3365, 158716], 0x558fb9f0992ba5e1);

    #[test]
    fn all_characters() {
        let (mut counts, mut sum) = ([0; 3], 0_u64);
        for c in '\0'..=char::MAX {
            let class = usize::from(is_xid_continue(c)) + usize::from(is_xid_start(c));
            assert!(is_xid_continue(c) || !is_xid_start(c));
            counts[class] += 1;
            sum = sum.wrapping_mul(31).wrapping_add(class as u64);
        }
        assert_eq!((counts, sum), COUNTED);
    }

    #[test]
    fn the_runs_are_in_order() {
        assert!(RUNS.windows(2).all(|pair| pair[0] >> 2 < pair[1] >> 2));
    }
}
