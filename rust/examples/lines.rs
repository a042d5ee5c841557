//! Prints the package's result for each line of standard input, so that scripts can compare the package with other programs.
//!
//! A line is a command and the bytes of a text in hexadecimal. For `text`, `value`, `strict` and `attr` the output is that of
//! `rl_rows` for the same command. For `places` it has the form that `oracle/places.py` compares.

use navyspindle::{
    is_token, parse_settings, write_byte, write_byte_str, write_char, write_str, Lit, Segment,
    SegmentValue, SettingErrorKind, SyntaxErrorKind,
};
use std::borrow::Cow;

#[path = "../programs/rows/src/commands.rs"]
mod commands;

/// Returns a suffix as the output shows it: unchanged if it is an identifier, otherwise as a string literal.
fn suffix_of(suffix: &str) -> String {
    match suffix {
        "" => "-".to_owned(),
        "_" => "_".to_owned(),
        _ if is_token(&format!("\"\"{suffix}")) => suffix.to_owned(),
        _ => write_str(suffix),
    }
}

/// Returns the output line of a literal.
fn line_of(literal: &Lit) -> String {
    let contents = match literal {
        Lit::Str(string) => write_str(&string.value()),
        Lit::ByteStr(string) => write_byte_str(&string.value()),
        Lit::CStr(string) => write_byte_str(&string.value()).replacen('b', "c", 1),
        Lit::Byte(byte) => write_byte(byte.value()),
        Lit::Char(character) => write_char(character.value()),
        Lit::Int(number) => number.base10_digits().into_owned(),
        Lit::Float(number) => number.base10_digits().into_owned(),
        Lit::Bool(truth) => truth.value().to_string(),
        other => write_str(other.text()),
    };
    format!(
        "{:?} {contents} {}",
        literal.kind(),
        suffix_of(literal.suffix())
    )
}

/// Returns the output lines of a text's settings, or of its error. The last line is a full stop.
fn settings_of(text: &str) -> String {
    let lines = match parse_settings(text) {
        Ok(entries) => {
            let line =
                |entry: &navyspindle::Entry| format!("{} {}\n", entry.name, line_of(&entry.value));
            entries.iter().map(line).collect()
        }
        Err(error) => {
            let range = error.range();
            let kind = match error.kind() {
                SettingErrorKind::Syntax(kind) => *kind,
                _ => SyntaxErrorKind::Repeated,
            };
            match lexer_words(kind) {
                Some(words) => format!("error at {}..{}: {words}\n", range.start, range.start),
                None => format!("error at {}..{}: {kind}\n", range.start, range.end),
            }
        }
    };
    lines + "."
}

/// Returns the message of `rl_rows` for an error of the lexer, which `rl_rows` reports at a single byte offset. Returns `None` for
/// any other error.
fn lexer_words(kind: SyntaxErrorKind) -> Option<&'static str> {
    Some(match kind {
        SyntaxErrorKind::DocComment => "doc comment is not carried",
        SyntaxErrorKind::UnclosedComment => "unclosed block comment",
        SyntaxErrorKind::UnclosedQuote => "unclosed quote",
        SyntaxErrorKind::Lifetime => "lifetime is not carried",
        SyntaxErrorKind::RawIdentifier => "raw identifier is not carried",
        SyntaxErrorKind::StrayCharacter => "stray character",
        SyntaxErrorKind::UnmatchedClose => "unmatched closing delimiter",
        SyntaxErrorKind::UnclosedGroup => "unclosed group",
        SyntaxErrorKind::TooDeep => "groups nested too deep",
        _ => return None,
    })
}

/// Returns the segments of a quoted literal, and the range for each byte of its value, as one line of JSON.
fn places_of(text: &str) -> String {
    let literal = Lit::of_text(text);
    let (segments, places, len) = match &literal {
        Lit::Str(it) => (it.segments(), it.offset_map(), it.value().len()),
        Lit::ByteStr(it) => (it.segments(), it.offset_map(), it.value().len()),
        Lit::CStr(it) => (it.segments(), it.offset_map(), it.value().len()),
        Lit::Byte(it) => (it.segments(), it.offset_map(), 1),
        Lit::Char(it) => (it.segments(), it.offset_map(), it.value().len_utf8()),
        _ => {
            let text = encoded(text);
            return format!(r#"{{"text": "{text}", "segments": null, "places": null}}"#);
        }
    };
    let segment = |it: Segment| {
        let value = match it.value {
            SegmentValue::Text(text) => format!(r#""T", "{}""#, encoded(text)),
            SegmentValue::Char(c) => format!(r#""C", {}"#, u32::from(c)),
            SegmentValue::Byte(byte) => format!(r#""B", {byte}"#),
            _ => r#""N", 0"#.to_owned(),
        };
        format!("[{}, {}, {value}]", it.range.start, it.range.end)
    };
    let place = |byte| {
        let range = places.byte_range(byte);
        format!("[{}, {}]", range.start, range.end)
    };
    let segments: Vec<String> = segments.map(segment).collect();
    let places: Vec<String> = (0..=len).map(place).collect();
    let (text, segments, places) = (encoded(text), segments.join(", "), places.join(", "));
    format!(r#"{{"text": "{text}", "segments": [{segments}], "places": [{places}]}}"#)
}

/// Encodes the bytes of a text in hexadecimal.
fn encoded(text: &str) -> String {
    text.bytes().map(|byte| format!("{byte:02x}")).collect()
}

/// Returns the value that a literal borrows from its text, as a byte string literal, or `None` as text if it borrows nothing.
fn borrowed_of(text: &str) -> String {
    let literal = Lit::of_text(text);
    let bytes = match &literal {
        Lit::Str(string) => borrowed_text(string.value()),
        Lit::ByteStr(string) => borrowed(string.value()),
        Lit::CStr(string) => borrowed(string.value()),
        Lit::Int(number) => borrowed_text(number.base10_digits()),
        Lit::Float(number) => borrowed_text(number.base10_digits()),
        _ => None,
    };
    bytes.map_or("None".to_owned(), write_byte_str)
}

fn borrowed(bytes: Cow<'_, [u8]>) -> Option<&[u8]> {
    match bytes {
        Cow::Borrowed(bytes) => Some(bytes),
        Cow::Owned(_) => None,
    }
}

fn borrowed_text(text: Cow<'_, str>) -> Option<&[u8]> {
    match text {
        Cow::Borrowed(text) => Some(text.as_bytes()),
        Cow::Owned(_) => None,
    }
}

/// Returns the result of a command for a text, or `None` for an unknown command.
fn answer(command: &str, text: &str) -> Option<String> {
    let line = match command {
        "text" => line_of(&Lit::of_text(text)),
        "attr" => settings_of(text),
        "places" => places_of(text),
        "value" => borrowed_of(text),
        "strict" => is_token(text).to_string(),
        _ => return None,
    };
    Some(line + "\n")
}

fn main() -> std::io::Result<()> {
    commands::run_commands(answer)
}
