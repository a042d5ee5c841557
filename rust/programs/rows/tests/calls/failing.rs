//! Tests calls whose allocations fail.

use crate::rows::{check, check_headings};
use crate::shown::{at, range, HERE};
use navyspindle_programs::rattle_std::alloc::Global;
use navyspindle_programs::rl_grammar::{value_byte_spans, Segments};
use navyspindle_programs::rl_tokens::{Literal, Span};
use navyspindle_programs::rust_literals::Lit;
use navyspindle_rows::failing::Failing;

const TABLE: &str = include_str!("failing.rows");

#[test]
fn headings() {
    check_headings(TABLE, include_str!("failing.rs"));
}

/// Parses literals while every allocation fails. Shows the literal if no allocation is needed, or else the error and the token that
/// is returned.
#[test]
fn every_allocation() {
    check(TABLE, "all_failing", |text| {
        let failing = &Failing::new(Global);
        let token = Literal::from_text(failing, text, HERE).unwrap();
        failing.fail_from_to(1, u64::MAX);
        let answer = Lit::new(failing, token);
        failing.stop_failing();
        match &answer {
            Ok(Lit::Int(it)) => format!("Int {} {}", it.base10_digits(), it.suffix()),
            Ok(Lit::Float(it)) => format!("Float {} {}", it.base10_digits(), it.suffix()),
            Ok(other) => format!("{} {}", other.text(), other.suffix()),
            Err(kept) => {
                let spans = (at(kept.error.span), at(kept.value.span()));
                format!(
                    "{} {} {} {}",
                    kept.error,
                    spans.0,
                    kept.value.text(),
                    spans.1
                )
            }
        }
    });
}

/// Computes the value of a string literal with ten thousand copies of the text, while all allocations after the first fail. Shows
/// whether the literal borrows its value, and the value's length or the error.
#[test]
fn all_but_the_first() {
    check(TABLE, "second_failing", |text| {
        let failing = &Failing::new(Global);
        let quoted = format!("\"{}\"", text.repeat(10_000));
        let token = Literal::from_text(failing, &quoted, HERE).unwrap();
        let Ok(Lit::Str(literal)) = Lit::new(failing, token) else {
            panic!("no string");
        };
        failing.fail_from_to(2, u64::MAX);
        let value = literal.value(failing);
        failing.stop_failing();
        let borrows = literal.value_ref().is_some();
        match value {
            Ok(value) => format!("{borrows} {}", value.len()),
            Err(it) => format!("{borrows} {it}"),
        }
    });
}

/// Returns the result of a call while the allocations from `first` to `last` fail, and the number of requested allocations. All
/// memory must be freed.
fn tried(call: impl Fn(&Failing<Global>) -> String, first: u64, last: u64) -> (String, u64) {
    let failing = Failing::new(Global);
    failing.fail_from_to(first, last);
    let answer = call(&failing);
    let asked = failing.stop_failing();
    assert_eq!(failing.blocks_in_use(), 0, "{answer}");
    (answer, asked)
}

/// Shows the result of a call without failures, and then while each allocation fails: this one only, and this one with all later
/// ones. Equal results are shown once.
pub fn results(call: impl Fn(&Failing<Global>) -> String) -> String {
    let (ample, asked) = tried(&call, 1, 0);
    let mut out = format!("  ample: {ample}\n");
    for first in 1..=asked.max(1) {
        for last in [first, u64::MAX] {
            let (answer, _) = tried(&call, first, last);
            let line = match answer.as_str() {
                it if it == ample => "  failed: the same answer\n".to_owned(),
                it if it.starts_with("out of memory") => format!("  failed: {it}\n"),
                it => format!("  OTHER: {it}\n"),
            };
            if !out.contains(&line) {
                out += &line;
            }
        }
    }
    out
}

/// Computes the span that encodes each byte of a literal's value, while the allocations fail.
#[test]
fn spans_of_bytes() {
    check(TABLE, "spans", |text| {
        let base = Span::new(7, 0, text.len());
        results(|failing| {
            let segments = Segments::of(text).expect("a quoted literal");
            match value_byte_spans(failing, segments, base) {
                Ok(spans) => spans.iter().map(|it| format!(" {}", range(*it))).collect(),
                Err(_) => "out of memory".to_owned(),
            }
        })
    });
}
