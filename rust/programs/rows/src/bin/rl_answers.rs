//! Prints the results of commands for texts, so that scripts can compare them with those of other programs.
//!
//! A line of input is a command, a space, and the text's bytes in hexadecimal, as for `rl_rows`:
//!
//! - `explain` prints the reason why the text isn't a token of Rust, or `None`.
//! - `explain-value` prints the reason why the text has no value, or `None`.
//! - `source` prints the literals of a source, each with its position, and then a line with a full stop.
//! - The commands of `core_calls` print what the core returns.

use navyspindle_rows::answers::{explained, source_lines, value_explained};
use navyspindle_rows::commands::run_commands;
use navyspindle_rows::core_calls::core_call;

/// Returns the result of a command for a text, or `None` for an unknown command.
fn answer(command: &str, text: &str) -> Option<String> {
    match command {
        "explain" => Some(explained(text)),
        "explain-value" => Some(value_explained(text)),
        "source" => Some(source_lines(text)),
        _ => core_call(command, text),
    }
}

fn main() -> std::io::Result<()> {
    run_commands(answer)
}
