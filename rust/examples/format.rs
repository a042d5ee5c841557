//! Prints Rust files with their literals in one style: `cargo run --example format FILE..`. All other bytes stay unchanged.

use navyspindle::{rewrite_source, Case, Style};
use std::process::ExitCode;
use std::{env, fs};

/// The style: hexadecimal digits and exponents in lower case, and raw strings with the fewest `#`.
const STYLE: Style = Style::new()
    .hex_digits(Case::Lower)
    .exponent_letter(Case::Lower)
    .fewest_hashes(true);

/// Prints a file in the style, or an error message. Returns whether it printed the file.
fn print(name: &str) -> bool {
    let text = match fs::read_to_string(name) {
        Ok(text) => text,
        Err(error) => {
            eprintln!("{name}: {error}");
            return false;
        }
    };
    let written = rewrite_source(&text, STYLE).apply();
    match &written {
        Ok(written) => print!("{written}"),
        Err(error) => eprintln!("{name}: {error}"),
    }
    written.is_ok()
}

fn main() -> ExitCode {
    let failed = env::args().skip(1).filter(|name| !print(name)).count();
    ExitCode::from(u8::from(failed > 0))
}
