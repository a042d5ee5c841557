//! Compares the characters of identifiers with rustc's. The package has the tables of Unicode 18. Rust 1.95 has those of Unicode 17.
//! Debug builds leave the comparison out, because it takes some seconds.
#![cfg(not(debug_assertions))]

use navyspindle::LitInt;
use navyspindle_macros::identifier_sequences;

const SEQUENCES: &[u32] = identifier_sequences!();

/// The number of characters that are new in Unicode 18, so that rustc 1.95 rejects them. docs/DIFFERENCES.md states this number.
const NEW: usize = 12_860;

/// Returns the class of a character, as `identifier_sequences` numbers them: `1c` has a suffix if `c` begins identifiers, and `1xc` has
/// one if it continues them.
fn class_of(c: char) -> u32 {
    let [begins, continues] = ["1", "1x"].map(|text| LitInt::parse(&format!("{text}{c}")).is_ok());
    assert!(continues || !begins, "{c:?}");
    u32::from(begins) + u32::from(continues)
}

#[test]
fn rustc_has_the_same_characters_except_for_new_ones() {
    let (mut sequences, mut theirs, mut new) = (SEQUENCES.iter().peekable(), 0, 0);
    for c in '\u{80}'..=char::MAX {
        while let Some(number) = sequences.next_if(|it| **it >> 2 <= u32::from(c)) {
            theirs = number & 3;
        }
        let ours = class_of(c);
        if ours != theirs {
            assert_eq!(theirs, 0, "{c:?}");
            new += 1;
        }
    }
    assert_eq!(new, NEW);
}
