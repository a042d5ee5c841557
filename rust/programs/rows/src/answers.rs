//! The results of commands that only Cargo's programs have, and not the proved `rl_rows`.

use crate::command::run;
use crate::rl_grammar::{explain, explain_missing_value, Flaw, LineEnds};

/// Returns the reason why the text isn't a token of Rust, as a line, or the line `None`.
pub fn explained(text: &str) -> String {
    flaw_line(explain(text))
}

/// Returns the reason why the text has no value, as a line, or the line `None`.
pub fn value_explained(text: &str) -> String {
    flaw_line(explain_missing_value(text, LineEnds::Text, true))
}

/// Returns a line with the flaw's kind, the offset where its displayed text begins, and its range.
fn flaw_line(flaw: Option<Flaw>) -> String {
    match flaw {
        Some(it) => format!("{:?} {} {}..{}\n", it.kind, it.from, it.lo, it.hi),
        None => "None\n".to_owned(),
    }
}

/// Returns the lines that `rl_scan` prints for a source: its literals with their positions, and its error. The last line is a full
/// stop.
pub fn source_lines(text: &str) -> String {
    let (out, _, errors) = run(&[], text);
    format!("{out}{errors}.\n")
}
