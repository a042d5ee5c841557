//! Prints input for `rl_rows` on generated texts. `tools/same_programs` passes this input to the proved `rl_rows` and to the
//! `rl_rows` that Cargo builds, and compares their output.
//!
//! - `rl_texts texts COUNT SEED`: each command, on COUNT texts of all kinds.
//! - `rl_texts settings COUNT SEED`: the command `attr`, on COUNT texts of settings.
//! - `rl_texts characters`: each character, in twelve positions of literals and lists.

use navyspindle_rows::{settings, texts};
use std::env;
use std::io::{self, BufWriter, Write};

const COMMANDS: [&str; 9] = [
    "text", "value", "int", "float", "skip", "strict", "read", "spans", "attr",
];

/// Writes a row: a command, and the bytes of a text as hexadecimal digits.
fn put_row(out: &mut impl Write, command: &str, text: &str) -> io::Result<()> {
    write!(out, "{command} ")?;
    for byte in text.bytes() {
        write!(out, "{byte:02x}")?;
    }
    out.write_all(b"\n")
}

fn put_texts(out: &mut impl Write, count: usize, seed: u64) -> io::Result<()> {
    let mut random = texts::Random::new(seed);
    for n in 0..count {
        let text = texts::nth(&mut random, n);
        for command in COMMANDS {
            put_row(out, command, &text)?;
        }
    }
    Ok(())
}

fn put_settings(out: &mut impl Write, count: usize, seed: u64) -> io::Result<()> {
    let mut random = texts::Random::new(seed);
    for _ in 0..count {
        let text = settings::made(&mut random).text;
        put_row(out, "attr", &text)?;
        put_row(out, "attr", &texts::broken(&mut random, &text))?;
    }
    Ok(())
}

fn put_characters(out: &mut impl Write) -> io::Result<()> {
    for c in '\0'..=char::MAX {
        for text in texts::alone(c) {
            put_row(out, "text", &text)?;
            put_row(out, "strict", &text)?;
        }
        for text in texts::among(c) {
            put_row(out, "spans", &text)?;
        }
    }
    Ok(())
}

fn main() -> io::Result<()> {
    let words: Vec<String> = env::args().skip(1).collect();
    let words: Vec<&str> = words.iter().map(String::as_str).collect();
    let count = |word: &str| word.parse().expect("COUNT is a number");
    let seed = |word: &str| word.parse().expect("SEED is a number");
    let mut out = BufWriter::new(io::stdout().lock());
    match words.as_slice() {
        ["texts", number, start] => put_texts(&mut out, count(number), seed(start))?,
        ["settings", number, start] => put_settings(&mut out, count(number), seed(start))?,
        ["characters"] => put_characters(&mut out)?,
        _ => panic!("usage: rl_texts texts COUNT SEED | settings COUNT SEED | characters"),
    }
    out.flush()
}
