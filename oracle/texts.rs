//! Reads texts, each of which follows its length of four bytes, the lowest first, and writes the results.
#![allow(dead_code)]

use std::io::{self, BufWriter, Read, Write};
use std::{env, fs};

/// Iterates over the texts, which must be UTF-8.
pub fn split(data: &[u8]) -> impl Iterator<Item = &str> {
    let mut rest = data;
    std::iter::from_fn(move || {
        let (len, after) = rest.split_first_chunk()?;
        let (text, after) = after.split_at(u32::from_le_bytes(*len) as usize);
        rest = after;
        Some(std::str::from_utf8(text).expect("a text"))
    })
}

/// Encodes the bytes of a text in hexadecimal.
pub fn hex(text: &str) -> String {
    text.bytes().map(|byte| format!("{byte:02x}")).collect()
}

/// Iterates over the texts of the file that the environment variable `ANSWERS_TEXTS` names.
pub fn given() -> impl Iterator<Item = &'static str> {
    split(fs::read(env::var("ANSWERS_TEXTS").expect("a path")).expect("texts").leak())
}

/// Writes results to the file that the environment variable `ANSWERS_OUT` names. A macro returns the default value, no tokens.
pub fn write<T: Default>(answers: impl Iterator<Item = String>) -> T {
    let mut out = BufWriter::new(fs::File::create(env::var("ANSWERS_OUT").expect("a path")).expect("a file"));
    for answer in answers {
        out.write_all(answer.as_bytes()).expect("room for the answers");
    }
    out.flush().expect("room for the answers");
    T::default()
}

/// Writes the result of each text on standard input to standard output.
pub fn print(answer: impl Fn(&str) -> String) -> io::Result<()> {
    let mut data = Vec::new();
    io::stdin().read_to_end(&mut data)?;
    let mut out = BufWriter::new(io::stdout().lock());
    for text in split(&data) {
        out.write_all(answer(text).as_bytes())?;
    }
    out.flush()
}
