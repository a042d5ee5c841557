//! Tests of the traits that all types of literals, errors or iterators implement.

use navyspindle::{
    flaws, flaws_in_file, parse_list, pieces_in_file, rewrite_source, source, Case, FlawKind, Key,
    Kind, Lit, LitFloat, LitInt, LitStr, ParseErrorKind, SettingErrorKind, Settings, Style,
    SyntaxErrorKind, TypeError, ValueErrorKind,
};
use std::collections::HashSet;
use std::error::Error;
use std::fmt::Debug;
use std::hash::Hash;

/// Checks that a clone, made after each number of items, returns the remaining items, and that the original iterator continues
/// after the cloning.
fn clones_go_on<I>(items: impl Fn() -> I, least: usize)
where
    I: Iterator<Item: Debug + PartialEq> + Clone,
{
    let all: Vec<_> = items().collect();
    assert!(all.len() >= least, "{all:?}");
    for taken in 0..=all.len() + 1 {
        let mut left = items();
        left.by_ref().take(taken).for_each(drop);
        let left_in_clone: Vec<_> = left.clone().collect();
        let rest = &all[taken.min(all.len())..];
        assert_eq!(left_in_clone, rest);
        assert_eq!(left.collect::<Vec<_>>(), rest);
    }
}

#[test]
fn iterators_are_cloned() {
    let text = "1 'a' \"b\\n\" 0xFF 1.5";
    clones_go_on(|| parse_list(text), 5);
    clones_go_on(|| source(text), 5);
    clones_go_on(|| source("f(\"a);\nlet b = 'x';\ng('ab');").recover(), 3);
    for text in [
        r#""a\n\u{e9}b\
              c""#,
        "b\"\\xFF\\n-\"",
        "r#\"a\\n\"#",
        "'\\''",
        r#""""#,
    ] {
        let literal = Lit::parse(text).unwrap();
        clones_go_on(|| literal.segments().unwrap(), usize::from(text.len() > 2));
    }
    for text in [r#""\q\u{d800}a\y"#, "0b2", "'ab'"] {
        clones_go_on(|| flaws(text), 1);
        let Lit::Verbatim(literal) = Lit::of_text(text) else {
            continue;
        };
        clones_go_on(|| literal.flaws(), 1);
    }
    clones_go_on(|| flaws_in_file("\"\r\n\\q\r\n\\y\r\n\\z\""), 3);
    clones_go_on(|| pieces_in_file("\"a\r\n\\q\u{e9}\\yb\"").unwrap(), 5);
    let style = Style::new().hex_digits(Case::Lower).fewest_hashes(true);
    let text = r###"f(0xAB, t.0xF, r##"b"##, 0xab, m!(0xCD)); "c"###;
    clones_go_on(|| rewrite_source(text, style), 4);
    clones_go_on(|| rewrite_source(text, style).skip_macros(true), 3);
    clones_go_on(|| rewrite_source("#!/bin/sh\n0xAB", style), 0);
    let read = Settings::read("a = 1, b = 2, c = 3").unwrap();
    let known = [Key::new("b", "a number")];
    clones_go_on(|| read.unknown(&known), 2);
}

#[test]
fn iterators_print_their_names() {
    assert!(format!("{:?}", parse_list("1")).starts_with("Literals("));
    assert!(format!("{:?}", source("1")).starts_with("Source("));
    assert!(format!("{:?}", source("1").recover()).starts_with("Recover("));
    assert!(format!("{:?}", rewrite_source("1", Style::new())).starts_with("Edits {"));
}

#[test]
fn kinds_of_errors_print_and_are_errors() {
    fn words(kind: impl Error + Clone + PartialEq + Hash) -> String {
        kind.to_string()
    }
    assert_eq!(words(FlawKind::Empty), "empty text");
    assert_eq!(words(SyntaxErrorKind::Repeated), "repeated name");
    assert_eq!(words(ValueErrorKind::Suffix), "suffix of another type");
    assert_eq!(
        words(ValueErrorKind::OutOfRange),
        "number out of the type's range"
    );
    assert_eq!(words(TypeError::OutOfRange), "out of its type's range");
    let (expected, found) = (Kind::Int, Kind::Float);
    let kind = ParseErrorKind::Kind { expected, found };
    assert_eq!(
        words(kind),
        "expected integer literal, found floating point literal"
    );
    const PORT: Key = Key::new("port", "an integer");
    assert_eq!(
        words(SettingErrorKind::Missing(PORT)),
        "missing port: expected an integer"
    );
    let read = Settings::read("port = 300").unwrap();
    let error = read.number::<u8>(PORT).unwrap_err();
    let source = error.kind().source().unwrap();
    assert_eq!(source.to_string(), "number out of range for u8 at byte 0");
    let read = Settings::read("port = 0b2").unwrap();
    let error = read.number::<u8>(PORT).unwrap_err();
    let source = error.kind().source().unwrap();
    assert_eq!(source.to_string(), "invalid digit for this base at byte 2");
}

#[test]
fn literals_of_two_kinds_differ() {
    // The text `1f64` can be a literal of two kinds. Each of the two literals is equal only to itself.
    let int = Lit::from(LitInt::of_text("1f64").unwrap());
    let float = Lit::from(LitFloat::of_text("1f64").unwrap());
    assert!(int != float);
    assert_eq!(HashSet::from([int.clone(), float, int]).len(), 2);
}

#[test]
fn settings_are_compared_and_iterated_over() {
    let read = Settings::read("a = 1, b = 'x'").unwrap();
    let names: Vec<&str> = (&read).into_iter().map(|entry| entry.name).collect();
    assert_eq!(names, ["a", "b"]);
    assert_eq!(read, Settings::read("a = 1, b = 'x'").unwrap());
    assert_ne!(read, Settings::read("a = 1, b = 'y'").unwrap());
    let values: Vec<Lit> = read.into_iter().map(|entry| entry.value).collect();
    assert_eq!(values, [Lit::of_text("1"), Lit::of_text("'x'")]);
}

#[test]
fn places_are_compared() {
    let places = |text: &str| LitStr::parse(text).unwrap().offset_map();
    assert_eq!(places(r#""a\n""#), places(r#""b\t""#));
    assert_ne!(places(r#""a\n""#), places(r#""\na""#));
}
