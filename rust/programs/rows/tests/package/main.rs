//! Compares the types of the package `navyspindle`, which are written by hand, with the translated libraries. The expected results
//! come from these libraries, or are written in the tests. `tools/package_wrong` checks that the tests reject wrong edits of the
//! package's code.

mod asked;
mod flaws;
mod lines;
mod lists;
mod literals;
mod made;
mod numbers;
mod quoted;

use asked::check_settings;
use lists::{check_list, check_source};
use literals::{check_equal, check_literal, check_text};
use navyspindle_rows::{settings, texts};
use std::fs;
use std::ops::Range;
use std::path::{Path, PathBuf};

fn check_all(text: &str) {
    check_text(text);
    check_list(text);
    let _ = check_settings(text);
    check_source(text);
}

/// Checks a text by fewer functions than `check_all` does, and in less time.
fn check_most(text: &str) {
    check_literal(text);
    check_list(text);
    let _ = check_settings(text);
    check_source(text);
}

/// The number of generated texts that are tested by default. The ignored tests, which `rust/check` runs, test the remaining texts.
const SAMPLE: usize = 2_000;
const TEXTS: usize = 200_000;
const SETTINGS: usize = 100_000;
const KNOWN_SETTINGS: usize = 200_000;

fn check_texts(tried: Range<usize>) {
    let mut r = texts::Random::new(5);
    let mut joined = String::new();
    for n in 0..tried.end {
        let text = texts::nth(&mut r, n);
        if !tried.contains(&n) {
            continue;
        }
        if n % 4 == 0 || text.len() < 12 {
            check_all(&text);
        } else {
            check_most(&text);
        }
        if n % 100 < 40 {
            joined += &text;
        } else if n % 100 == 50 {
            lines::check(&joined);
            lines::check(&format!("\u{feff}{joined}"));
            joined.clear();
        }
    }
}

#[test]
fn generated_texts() {
    check_texts(0..SAMPLE);
}

#[test]
#[ignore = "half a minute of a processor; rust/check runs it"]
fn generated_texts_of_the_first_half() {
    check_texts(SAMPLE..TEXTS / 2);
}

#[test]
#[ignore = "half a minute of a processor; rust/check runs it"]
fn generated_texts_of_the_second_half() {
    check_texts(TEXTS / 2..TEXTS);
}

fn check_generated_settings(tried: Range<usize>) {
    let (mut entries, mut rejected) = (0, 0);
    let (mut picks, mut r) = (made::Picks(5), texts::Random::new(6));
    for n in 0..tried.end {
        let text = made::settings(&mut picks);
        let broken = texts::broken(&mut r, &text);
        if !tried.contains(&n) {
            continue;
        }
        for text in [&text, &broken] {
            match check_settings(text) {
                Some(count) => entries += count,
                None => rejected += 1,
            }
        }
    }
    let least = tried.len() * 2 / 5;
    assert!(entries > least && rejected > least, "{entries} {rejected}");
}

#[test]
fn generated_settings() {
    check_generated_settings(0..SAMPLE);
}

#[test]
#[ignore = "ten seconds of a processor; rust/check runs it"]
fn more_generated_settings() {
    check_generated_settings(SAMPLE..SETTINGS);
}

/// Checks generated texts of settings that are assembled from parts, so that their expected parse results are known.
fn check_known_settings(tried: Range<usize>) {
    let mut random = texts::Random::new(3);
    for n in 0..tried.end {
        let made = settings::made(&mut random);
        if tried.contains(&n) {
            assert_eq!(asked::reading(&made.text), made.answer, "{:?}", made.text);
        }
    }
}

#[test]
fn known_settings() {
    check_known_settings(0..SAMPLE);
}

#[test]
#[ignore = "five seconds of a processor; rust/check runs it"]
fn more_known_settings() {
    check_known_settings(SAMPLE..KNOWN_SETTINGS);
}

#[test]
fn telling_settings() {
    for text in [
        "max_size = 1, max_size_of = 2",
        "maximum_size_of_a = 1, maximum_size_of_b = 2",
        "max_size_of = 1, max_size_of = 2",
        "port = 1, Port = 2, ports = 3",
        "a = -0",
        "a = - 0, b = -0.0",
        "a = -0x0, b = -0",
        "a {) = 1",
        "a = 1, {)",
        "a = (}",
        "a = [1}",
        "a = \"a\"x",
        "a = \"long enough for all\"x",
        "a = 1,",
        "a = 1, \n",
        "a = \n",
        "a = \"a\r\n\\q\"",
    ] {
        let _ = check_settings(text);
    }
}

#[test]
fn numbers_with_suffixes() {
    let suffixes = "u8 u16 u32 u64 u128 usize i8 i16 i32 i64 i128 isize f16 f32 f64 f128 u1 i7 u256 f6 f3 f320 F32 U8 usiz usizes _ _u8 _f64 e E x";
    for numeral in [
        "1",
        "0",
        "00",
        "1_0",
        "1.5",
        "1.",
        "1._5",
        "1.e5",
        "1.f",
        "1e5",
        "1E+5",
        "1E5",
        "1.5E-3",
        "1e_5",
        "1.0e_5",
        "1e_+5",
        "1.5e_-3",
        "1.5e__+1",
        "1_.5",
        "1_0.5_0",
        "0x1",
        "0xe",
        "0b1",
        "0b2",
        "0o17",
        "0o8",
        "0x_F",
        "1.5_",
        "12345678.5",
        "123456789.5E1",
        "79228162514264337593543950336",
        "0xFFFF_FFFF_FFFF_FFFF_FFFF_FFFF_FFFF_FFFF",
        "340282366920938463463374607431768211456",
        "0x1_0000_0000_0000_0000_0000_0000_0000_0000",
    ] {
        for suffix in suffixes.split(' ').chain([""]) {
            for sign in ["", "-", "--", "- "] {
                check_all(&format!("{sign}{numeral}{suffix}"));
            }
        }
    }
}

#[test]
fn quotes() {
    let pieces = [
        "a",
        "é",
        "語",
        "\\n",
        "\\\\",
        "\\'",
        "\\\"",
        "\\0",
        "\\x41",
        "\\xfF",
        "\\u{e9}",
        "\\u{1_F600}",
        "\\u{D800}",
        "\\\n \t",
        "\\\r\n",
        "\r\n",
        "\r",
        "\n",
        "\t",
        "'",
        "\"",
        "\\q",
        "\\",
        "\0",
    ];
    let mut bodies = vec![
        "a".repeat(70),
        format!("{}\\n{}", "é".repeat(40), "b".repeat(70)),
        format!("\\\n{}\r\n", "c".repeat(65)),
        "\\x41".repeat(20),
    ];
    made::each(&pieces, 2, &mut |body| bodies.push(body.to_owned()));
    for body in &bodies {
        for (opener, closer) in [
            ("\"", "\""),
            ("b\"", "\""),
            ("c\"", "\""),
            ("'", "'"),
            ("b'", "'"),
            ("r\"", "\""),
            ("br#\"", "\"#"),
            ("cr##\"", "\"##"),
        ] {
            let text = format!("{opener}{body}{closer}");
            check_text(&text);
            check_source(&text);
            for suffix in ["x", "_s", "u8"] {
                check_literal(&format!("{text}{suffix}"));
            }
        }
    }
    for suffix in ["x", "_s", "_", "__a", "é", "1", "r#x", " "] {
        for text in [
            "\"a\"",
            "r#\"a\"#",
            "b\"a\\n\"",
            "c\"é\"",
            "'\\''",
            "b'\\xFf'",
            "true",
            "-1",
        ] {
            check_all(&format!("{text}{suffix}"));
        }
    }
}

#[test]
fn line_ends() {
    let pieces = [
        "\r\n", "\r", "\n", "\"", "'", "\\", " ", "a", "#", "\\x4", "\\u{",
    ];
    let fronts = [
        "", "\"", "b\"", "c\"", "'", "b'", "r\"", "r#\"", "br\"", "cr##\"", "r#", "1", "-1", "0x",
        "0b1", "1e", "1.", "-", "t", "true", "b", "c",
    ];
    made::each(&pieces, 4, &mut |body| {
        for front in fronts {
            flaws::check_file(&format!("{front}{body}"));
        }
    });
}

#[test]
fn equal_by_text() {
    let texts = [
        "\"a\"", "\"b\"", "\"b\"x", "r\"a\"", "b\"a\"", "b\"b\"", "c\"a\"", "c\"b\"", "'a'", "'b'",
        "b'a'", "b'b'", "1", "2", "01", "0x1", "1.5", "1.6", "true", "false", "word", "worm",
    ];
    for text in texts {
        texts.iter().for_each(|other| check_equal(text, other));
    }
}

#[test]
fn hashes_of_raw_strings() {
    for count in 253..259 {
        let hashes = "#".repeat(count);
        for opener in ["r", "br", "cr"] {
            for inside in ["", "a", "\"", "\r", "\r\n"] {
                check_all(&format!("{opener}{hashes}\"{inside}\"{hashes}"));
            }
        }
    }
}

#[test]
fn groups_nested_deep() {
    for depth in 125..132 {
        let (open, close) = ("([{".repeat(44), ")]}".repeat(44));
        let (open, close) = (&open[..depth], &close[..depth]);
        for text in [
            format!("a = {open}"),
            format!("{open}1"),
            format!("a = 1, b {open}{}", close.chars().rev().collect::<String>()),
        ] {
            check_most(&text);
        }
        let inside = format!("a = {}1{}", "(".repeat(depth), ")".repeat(depth));
        check_most(&inside);
        check_most(&format!("{inside}]"));
    }
}

#[test]
fn delimiters() {
    made::each(
        &["(", ")", "[", "]", "{", "}", "1, ", " "],
        4,
        &mut |group| {
            let _ = check_settings(&format!("a = 1, {group}"));
            let _ = check_settings(&format!("a {group} = 1"));
            check_list(&format!("1 {group} "));
        },
    );
}

#[test]
fn lines_and_columns() {
    made::each(
        &["a", "é", "\n", "\r\n", "語", "\u{feff}", "😀"],
        4,
        &mut lines::check,
    );
}

/// Checks a character in twelve positions, and as a written literal. Most characters are checked by fewer functions than other
/// texts are.
fn check_character(c: char) {
    let number = u32::from(c);
    quoted::check_written_character(c);
    if number < 0x250 {
        texts::alone(c).iter().for_each(|text| check_text(text));
        texts::among(c).iter().for_each(|text| check_all(text));
        return;
    }
    texts::alone(c).iter().for_each(|text| check_literal(text));
    for text in &texts::among(c) {
        if number < 0x3000 || number % 21 == 0 {
            check_most(text);
        } else {
            check_list(text);
            check_source(text);
        }
    }
}

/// Whether a character is tested by default.
fn is_in_sample(c: &char) -> bool {
    let number = u32::from(*c);
    number < 0x250 || number % 343 == 0
}

#[test]
fn characters() {
    let sample = ('\0'..=char::MAX).filter(is_in_sample);
    sample.for_each(check_character);
}

#[test]
#[ignore = "two minutes of a processor; rust/check runs it"]
fn characters_of_the_lower_half() {
    let others = ('\0'..'\u{88000}').filter(|c| !is_in_sample(c));
    others.for_each(check_character);
}

#[test]
#[ignore = "two minutes of a processor; rust/check runs it"]
fn characters_of_the_upper_half() {
    let others = ('\u{88000}'..=char::MAX).filter(|c| !is_in_sample(c));
    others.for_each(check_character);
}

/// Returns the paths of the Rust and Rattle sources below a folder. Build folders and hidden folders are skipped.
fn sources_below(folder: &Path) -> Vec<PathBuf> {
    let mut found = Vec::new();
    for entry in fs::read_dir(folder).unwrap() {
        let path = entry.unwrap().path();
        let name = path.file_name().unwrap_or_default().to_string_lossy();
        let is_hidden = name.starts_with('.') || name == "target" || name == "out";
        if path.is_dir() && !is_hidden {
            found.extend(sources_below(&path));
        } else if path.is_file() && (name.ends_with(".rs") || name.ends_with(".rt")) {
            found.push(path);
        }
    }
    found
}

/// Checks a source file, its literals, and changed texts of both with errors in them.
fn check_file(random: &mut texts::Random, text: &str) {
    check_source(text);
    check_list(text);
    for (range, _) in navyspindle::source(text).map_while(Result::ok) {
        check_all(&text[range.clone()]);
        check_all(&texts::broken(random, &text[range]));
    }
    for _ in 0..5 {
        check_source(&texts::broken(random, text));
    }
}

#[test]
fn sources_of_the_programs() {
    let paths = sources_below(&Path::new(env!("CARGO_MANIFEST_DIR")).join(".."));
    assert!(paths.len() > 100, "{}", paths.len());
    for path in paths {
        let text = fs::read_to_string(path).unwrap();
        check_source(&text);
        check_list(&text);
    }
}

#[test]
#[ignore = "half a minute of a processor; rust/check runs it"]
fn sources_of_the_repository() {
    let paths = sources_below(&Path::new(env!("CARGO_MANIFEST_DIR")).join("../../.."));
    assert!(paths.len() > 400, "{}", paths.len());
    let mut random = texts::Random::new(1);
    for path in paths {
        let text = fs::read_to_string(path).unwrap();
        check_file(&mut random, &text);
    }
}
