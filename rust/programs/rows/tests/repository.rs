//! Compares the package with other files of the repository: the messages of flaws, and the single texts of
//! `rust/programs/tests/stored/texts.rs`, each with the kind, the value and the suffix as `rl_tool text` prints them.

use navyspindle::{write_byte_str, write_str, Lit, ParseErrorKind};
use std::collections::HashSet;
use std::fs;

/// Whether `rl_tool` prints a suffix unchanged, because it is an identifier. The character `·` isn't a letter, but can continue an
/// identifier.
fn is_word(suffix: &str) -> bool {
    suffix.starts_with(|c: char| c == '_' || c.is_alphabetic())
        && suffix
            .chars()
            .all(|c| matches!(c, '_' | '·') || c.is_alphanumeric())
}

/// Returns the line that `rl_tool text` prints for the text.
fn line_of(text: &str) -> String {
    let (kind, contents, suffix) = match Lit::of_text(text) {
        Lit::Str(l) => ("Str", write_str(&l.value()), l.suffix().to_owned()),
        Lit::ByteStr(l) => ("ByteStr", write_byte_str(&l.value()), l.suffix().to_owned()),
        // The stored lines have an escape for each non-ASCII byte.
        Lit::CStr(l) => {
            let bytes = write_byte_str(&l.value()).replacen('b', "c", 1);
            ("CStr", bytes, l.suffix().to_owned())
        }
        Lit::Byte(l) => (
            "Byte",
            navyspindle::write_byte(l.value()),
            l.suffix().to_owned(),
        ),
        Lit::Char(l) => (
            "Char",
            navyspindle::write_char(l.value()),
            l.suffix().to_owned(),
        ),
        Lit::Int(l) => ("Int", l.base10_digits().into_owned(), l.suffix().to_owned()),
        Lit::Float(l) => (
            "Float",
            l.base10_digits().into_owned(),
            l.suffix().to_owned(),
        ),
        Lit::Bool(l) => ("Bool", l.value().to_string(), l.suffix().to_owned()),
        _ => ("Verbatim", write_str(text), String::new()),
    };
    let suffix = match suffix.as_str() {
        "" => "-".to_owned(),
        word if is_word(word) => word.to_owned(),
        other => write_str(other),
    };
    format!("{kind} {contents} {suffix}")
}

#[test]
fn stored_lines() {
    let (texts, _, _) = include!("../../tests/stored/texts.rs");
    let wrong: Vec<_> = texts
        .iter()
        .filter(|(text, line)| line_of(text) != *line)
        .map(|(text, line)| format!("{text:?}: {} for {line}", line_of(text)))
        .collect();
    assert!(texts.len() > 100, "{} texts", texts.len());
    assert!(
        wrong.is_empty(),
        "{} of {}: {:#?}",
        wrong.len(),
        texts.len(),
        &wrong[..wrong.len().min(12)]
    );
}

/// Each row of the table of messages that the contracts use must be correct for the package. A row is a kind of flaw and its
/// message. `tests/flaws.rs` has a text for each kind.
#[test]
fn the_words_are_the_programs() {
    let path = concat!(
        env!("CARGO_MANIFEST_DIR"),
        "/../../../crates/rl_strict/specs/FlawWords.antt"
    );
    let table = fs::read_to_string(path).expect("the table of words");
    let rows = table
        .lines()
        .filter(|it| it.starts_with("flaw_message ") && it.contains('='));
    let rows: HashSet<String> = rows.map(String::from).collect();
    let words = r###"truex br# r#x --1 r#"a" "\q" b"\u{e9}" "\x4" "\u0041" "\u{}" "\u{0000041}" "\x80" "\u{110000}"
        "\u{D83D}" c"\0" b"é" b'' 'ab' 1e+x 1.5.0 340282366920938463463374607431768211456 r"a"b" r#"a"## "a"_ 0xg
        0b102 0x1.5 1.f32"###;
    let hashes = format!("r{}", "#".repeat(256));
    let others = ["", "b'\t'", "\"a\rb\"", &hashes];
    let texts = words.split_whitespace().chain(others);
    let said = texts.map(|text| {
        let ParseErrorKind::Flaw(kind) = Lit::parse(text).unwrap_err().kind() else {
            panic!("{text}")
        };
        format!("flaw_message {kind:?} = codes {:?}", kind.to_string())
    });
    // `parse` reads the minus of a number, so it has no text with this flaw.
    let sign = "flaw_message Minus = codes \"a literal token has no sign\"";
    let said: HashSet<String> = said.chain([sign.to_owned()]).collect();
    assert_eq!(said, rows);
}
