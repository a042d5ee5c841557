//! Runs the commands in the lines of standard input. A line is a command, a space, and a text's bytes in hexadecimal.

use std::io::{self, BufWriter, Write};

/// Decodes pairs of hexadecimal digits to bytes.
fn decoded(digits: &str) -> Option<Vec<u8>> {
    (0..digits.len())
        .step_by(2)
        .map(|at| u8::from_str_radix(digits.get(at..at + 2)?, 16).ok())
        .collect()
}

/// Prints the result of each command for its text. `answer` returns the result with its line feed, or `None` for an unknown command.
pub fn run_commands(answer: impl Fn(&str, &str) -> Option<String>) -> io::Result<()> {
    let mut out = BufWriter::new(io::stdout().lock());
    for line in io::stdin().lines() {
        let line = line?;
        let (command, digits) = line.split_once(' ').unwrap_or((&line, ""));
        let printed = match decoded(digits).map(String::from_utf8) {
            None => "error: input is not hexadecimal\n".to_owned(),
            Some(Err(_)) => "error: input is not UTF-8\n".to_owned(),
            Some(Ok(text)) => {
                answer(command, &text).unwrap_or_else(|| "error: no command\n".to_owned())
            }
        };
        out.write_all(printed.as_bytes())?;
    }
    out.flush()
}
