//! Prints the decoded value of every string of Rust files, after the file's name and the string's byte range:
//! `cargo run --example strings FILE..`

use navyspindle::{source, Lit};
use std::error::Error;
use std::{env, fs};

fn print_strings(name: &str) -> Result<(), Box<dyn Error>> {
    let text = fs::read_to_string(name)?;
    for item in source(&text) {
        let (range, literal) = item.map_err(|error| format!("{name}: {error}"))?;
        if let Lit::Str(string) = literal {
            println!("{name}:{}..{} {}", range.start, range.end, string.value());
        }
    }
    Ok(())
}

fn main() -> Result<(), Box<dyn Error>> {
    env::args()
        .skip(1)
        .try_for_each(|name| print_strings(&name))
}
