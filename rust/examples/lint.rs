//! Reports the literals of Rust files that Rust rejects, and quotes and comments that aren't closed. Each report has a reason and a
//! position, as compilers print them: `cargo run --example lint FILE..`. The exit status is 1 if there was a report.

use navyspindle::{source, LineIndex};
use std::process::ExitCode;
use std::{env, fs};

/// Returns a text with escapes for its control characters, which would affect a terminal.
fn visible(text: &str) -> String {
    let shown = |c: char| match c.is_control() {
        true => c.escape_default().to_string(),
        false => c.to_string(),
    };
    text.chars().map(shown).collect()
}

/// Returns the byte offset and the message of each error in a text.
fn findings(text: &str) -> Vec<(usize, String)> {
    source(text)
        .filter_map(|item| match item {
            Ok((bytes, literal)) => {
                let error = literal.check().err()?;
                let at = bytes.start + error.range().start;
                Some((at, format!("{}: {}", error.kind(), visible(literal.text()))))
            }
            Err(error) => Some((error.offset(), error.kind().to_string())),
        })
        .collect()
}

/// Returns a line of output for each error in a file.
fn lines_of(name: &str) -> Vec<String> {
    let text = match fs::read_to_string(name) {
        Ok(text) => text,
        Err(error) => return vec![format!("{name}: {error}")],
    };
    let index = LineIndex::new(&text);
    let line_of = |(at, message)| format!("{name}:{}: {message}", index.line_column(at));
    findings(&text).into_iter().map(line_of).collect()
}

fn main() -> ExitCode {
    let lines: Vec<String> = env::args()
        .skip(1)
        .flat_map(|name| lines_of(&name))
        .collect();
    lines.iter().for_each(|line| println!("{line}"));
    ExitCode::from(u8::from(!lines.is_empty()))
}
