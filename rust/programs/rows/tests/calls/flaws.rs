//! Tests the reasons why texts aren't tokens of Rust, or have no value.

use crate::rows::{check, check_headings};
use navyspindle_programs::rl_grammar::strict::is_token;
use navyspindle_rows::answers::{explained, value_explained};

const TABLE: &str = include_str!("flaws.rows");

#[test]
fn headings() {
    check_headings(TABLE, include_str!("flaws.rs"));
}

/// Shows the first flaw of a text that isn't a token of Rust: its kind, the offset where its displayed text begins, and its range.
#[test]
fn flaws_of_tokens() {
    check(TABLE, "explain", |text| {
        let flaw = explained(text);
        assert_eq!(is_token(text), flaw == "None\n", "{text}");
        flaw
    });
}

/// Shows the first flaw of a text that has no value.
#[test]
fn flaws_of_values() {
    check(TABLE, "explain-value", value_explained);
}
