//! Tests of settings that are read by name.
#![cfg(feature = "settings")]

use navyspindle::{
    parse_settings, FlawKind, Key, ParseErrorKind, SettingErrorKind, Settings, ValueErrorKind,
};
use std::error::Error;
use std::ops::Range;

const PORT: Key = Key::new("port", "an integer");

fn rejected(text: &str) -> (SettingErrorKind, Range<usize>) {
    let read = Settings::read(text).expect("settings");
    let error = read.number::<u8>(PORT).expect_err("no number of 8 bits");
    (error.kind().clone(), error.range())
}

#[test]
fn errors_say_what_is_wrong_with_a_value_and_where() {
    let flaw = |text| {
        let (kind, range) = rejected(text);
        let SettingErrorKind::Literal(PORT, error) = kind else {
            panic!("{text}: {kind:?}")
        };
        (error.kind(), range)
    };
    let digit = ParseErrorKind::Flaw(FlawKind::InvalidDigit);
    assert_eq!(flaw("a = 1, port = 0b12"), (digit, 17..18));
    let exponent = ParseErrorKind::Flaw(FlawKind::NoExponentDigit);
    assert_eq!(flaw("port = - 1e"), (exponent, 7..11));
    let kind = SettingErrorKind::Kind(PORT);
    assert_eq!(rejected("port = 'a'"), (kind, 7..10));
    let read = Settings::read("port = \"a\"b").expect("settings");
    let error = read.string(PORT).expect_err("a suffix");
    let suffix = SettingErrorKind::Suffix(PORT);
    assert_eq!((error.kind(), error.range()), (&suffix, 10..11));
}

#[test]
fn numbers_are_judged_as_the_types_own_literals() {
    let value = |text| {
        let (kind, range) = rejected(text);
        let SettingErrorKind::Value(PORT, error) = kind else {
            panic!("{text}: {kind:?}")
        };
        (error.kind(), range)
    };
    assert_eq!(value("port = 256"), (ValueErrorKind::OutOfRange, 7..10));
    assert_eq!(value("port = 1u16"), (ValueErrorKind::Suffix, 8..11));
    assert_eq!(value("port = -1"), (ValueErrorKind::Minus, 7..8));
    assert_eq!(value("port = - 1"), (ValueErrorKind::Minus, 7..10));
    assert_eq!(value("port = 1.5"), (ValueErrorKind::Form, 7..10));
    let read = Settings::read("port = 1e400").expect("settings");
    let error = read.number::<f64>(PORT).expect_err("an infinity");
    let source = error.source().expect("the value's error").to_string();
    assert_eq!(source, "number out of range for f64 at byte 0");
    let words = "port: expected an integer: number out of range for f64 at byte 7";
    assert_eq!(error.to_string(), words);
}

/// An integer without a suffix that is too large for `f32`: the error is at the number.
#[test]
fn an_integer_out_of_range_of_a_float() {
    let text = "a = 340282366920938463463374607431768211455";
    let read = Settings::read(text).expect("settings");
    let error = read.number::<f32>(Key::new("a", "")).unwrap_err();
    assert_eq!(error.range(), 4..text.len());
}

#[test]
fn the_first_unknown_name_is_reported() {
    let read = Settings::read("a = 1, port = 2, Port = 3, por = 4, ports = 5").expect("settings");
    for (known, unknown, range) in [
        (&["port"][..], "a", 0..1),
        (&["port", "a"], "Port", 17..21),
        (&["ports", "Port", "port", "a"], "por", 27..30),
    ] {
        let known: Vec<Key> = known.iter().map(|name| Key::new(name, "")).collect();
        let error = read.check(&known).expect_err("an unknown name");
        let kind = SettingErrorKind::Unknown(unknown.to_string());
        assert_eq!((error.kind(), error.range()), (&kind, range));
    }
    let unknown = read.unknown(&[PORT]).map(|error| error.range());
    assert_eq!(unknown.collect::<Vec<_>>(), [0..1, 17..21, 27..30, 36..41]);
    let known = ["por", "ports", "Port", "port", "a"].map(|name| Key::new(name, ""));
    assert_eq!(read.check(&known), Ok(()));
}

/// An unknown name is compared with the known ones: at most a third of the letters of a similar one differ.
#[test]
fn a_similar_known_name_is_printed() {
    let known = ["name", "size", "rename_all", "a"].map(|name| Key::new(name, ""));
    for (unknown, similar) in [
        ("nme", Some("name")),
        ("sizes", Some("size")),
        ("renameAll", Some("rename_all")),
        ("nm", None),
        ("b", None),
        ("verbose", None),
    ] {
        let text = format!("a = 1, {unknown} = 2");
        let read = Settings::read(&text).expect("settings");
        let error = read.check(&known).expect_err("an unknown name");
        let hint = similar.map_or(String::new(), |name| format!(": did you mean `{name}`?"));
        let words = format!("unknown name `{unknown}` at byte 107{hint}");
        assert_eq!(error.shifted(100).to_string(), words);
        assert!(!read
            .check(&[])
            .expect_err("an unknown name")
            .to_string()
            .contains("mean"));
    }
}

#[test]
fn values_of_any_length() {
    for len in [0, 1, 7, 8, 63, 64, 1000] {
        let text = "a".repeat(len);
        let source = format!("port = \"{text}\", size = {}1", "0".repeat(len));
        let read = Settings::read(&source).expect("settings");
        let string = read.string(PORT).expect("a string");
        assert_eq!(string.as_deref(), Some(text.as_str()));
        let size = read.number::<u8>(Key::new("size", "a number"));
        assert_eq!(size, Ok(Some(1)), "{len}");
    }
}

#[test]
fn a_shifted_error_has_its_name() {
    let error = parse_settings("a = 1, b = 2, a = 3").expect_err("a name twice");
    let error = error.shifted(100);
    assert_eq!(error.to_string(), "repeated name `a` at byte 114");
    let kind = SettingErrorKind::Repeated("a".to_string());
    assert_eq!((error.kind(), error.range()), (&kind, 114..115));
}

#[test]
fn a_value_that_is_no_literal_says_why() {
    let read = Settings::read(r#"port = "a\u{D800}""#).expect("settings");
    let error = read.string(PORT).expect_err("a surrogate");
    let words = "port: expected an integer: a surrogate isn't a character at byte 16";
    assert_eq!((error.to_string().as_str(), error.range()), (words, 16..17));
}
