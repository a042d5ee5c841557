//! Tests the literals of whole sources.

use crate::rows::{check, check_headings};
use navyspindle_rows::answers::source_lines;

const TABLE: &str = include_str!("sources.rows");

#[test]
fn headings() {
    check_headings(TABLE, include_str!("sources.rs"));
}

/// Shows the output lines of a source: its literals with their positions, and its error.
#[test]
fn sources() {
    check(TABLE, "source", source_lines);
}
