//! Tests of single calls, with results that were written by hand.

use navyspindle::{
    parse_list, parse_settings, source, write_integer, write_raw_str, Base, DigitGroups, Key, Kind,
    LineColumn, LineIndex, Lit, LitFloat, LitInt, LitStr, Settings, Style, SyntaxErrorKind,
};

#[test]
fn a_list_ends_after_its_first_error() {
    let mut list = parse_list("1 word 2");
    let (range, literal) = list.next().unwrap().unwrap();
    assert_eq!((range, literal.text()), (0..1, "1"));
    let error = list.next().unwrap().unwrap_err();
    assert_eq!(error.kind(), SyntaxErrorKind::NotALiteral);
    assert_eq!(error.range(), 2..6);
    assert_eq!(error.shifted(100).range(), 102..106);
    assert!(list.clone().next().is_none());
    assert!(list.next().is_none());
    assert!(list.next().is_none());
}

#[test]
fn a_source_ends_after_its_first_error() {
    let mut literals = source("1; \"open\n2");
    assert_eq!(literals.next().unwrap().unwrap().0, 0..1);
    let error = literals.next().unwrap().unwrap_err();
    assert_eq!(error.range(), 3..10);
    assert!(literals.next().is_none());
    assert!(literals.next().is_none());
}

#[test]
fn iterators_print_the_rest_of_their_text() {
    let mut list = parse_list("1'a'");
    list.next();
    assert_eq!(format!("{list:?}"), r#"Literals("'a'")"#);
    let mut literals = source("f(1, 2)");
    literals.next();
    assert_eq!(format!("{literals:?}"), r#"Source(", 2)")"#);
    let mut literals = source("f(1, 2)").recover();
    literals.next();
    assert_eq!(format!("{literals:?}"), r#"Recover(", 2)")"#);
}

#[test]
fn a_minus_belongs_to_a_signed_prefix_alone() {
    assert!(Lit::parse_prefix("-1.5, 2").is_none());
    let (literal, rest) = Lit::parse_prefix_signed("-1.5, 2").unwrap();
    assert_eq!((literal.text(), rest), ("-1.5", ", 2"));
    let (literal, rest) = Lit::parse_prefix_signed("1.5, 2").unwrap();
    assert_eq!((literal.text(), rest), ("1.5", ", 2"));
}

#[test]
fn parts_of_literals() {
    let of = |text| Lit::parse(text).unwrap();
    assert_eq!(of(r#"c"a""#).hashes(), None);
    assert!(!of(r#"c"a""#).is_raw());
    assert_eq!(of(r###"cr##"a"##"###).hashes(), Some(2));
    assert_eq!(of("b'a'_s").body_range(), Some(2..3));
    assert_eq!(of("b'a'_s").body(), Some("a"));
    assert_eq!(of("true").suffix_range(), Some(4..4));
    let literal = LitInt::parse("-0xF_F_u8").unwrap();
    assert_eq!((literal.digits_range(), literal.digits()), (3..7, "F_F_"));
    let literal = LitFloat::parse("1.5e+3").unwrap();
    assert_eq!(literal.base10_digits(), "1.5e3");
}

#[test]
fn the_piece_of_an_error_moves_with_its_range() {
    let error = Lit::parse(r#""a\q""#).unwrap_err();
    assert_eq!((error.piece(), error.range()), (2..4, 3..4));
    let error = error.shifted(10);
    assert_eq!((error.piece(), error.range()), (12..14, 13..14));
}

#[test]
fn the_piece_of_a_settings_error() {
    // 2 to the power of 128.
    let large = "340282366920938463463374607431768211456";
    let port = Key::new("port", "an integer");
    let error = |value: &str| {
        let text = format!("a = 1, port = {value}, b = 2");
        let error = Settings::read(&text)
            .unwrap()
            .number::<u8>(port)
            .unwrap_err();
        assert_eq!(
            error.clone().shifted(9).piece().start,
            error.piece().start + 9
        );
        (
            text[error.piece()].to_string(),
            text[error.range()].to_string(),
        )
    };
    let shown = |piece: &str, range: &str| (piece.to_string(), range.to_string());
    assert_eq!(error(large), shown(large, ""));
    assert_eq!(
        error(&format!("{large}u8")),
        shown(&format!("{large}u"), "u")
    );
    assert_eq!(error("0b102"), shown("0b102", "2"));
    assert_eq!(error("1e"), shown("1e", ""));
    assert_eq!(error("-1e"), shown("-1e", ""));
    // The literal's text isn't the settings' text, so the whole value is both.
    assert_eq!(error("- 1e"), shown("- 1e", "- 1e"));
    assert_eq!(error("-/**/0b102"), shown("-/**/0b102", "-/**/0b102"));
    // The range of another error is its piece.
    assert_eq!(error("1u16"), shown("u16", "u16"));
    assert_eq!(error("300"), shown("300", "300"));
    assert_eq!(error("\"a\""), shown("\"a\"", "\"a\""));
    let settings = Settings::read(r#"host = "a\x9b""#).unwrap();
    let error = settings.string(Key::new("host", "a string")).unwrap_err();
    assert_eq!((error.piece(), error.range()), (9..12, 11..12));
    let error = settings.check(&[port]).unwrap_err();
    assert_eq!((error.piece(), error.range()), (0..4, 0..4));
    assert_eq!(settings.missing_error(port).piece(), 14..14);
    assert_eq!(Settings::read("a = 1 b").unwrap_err().piece(), 6..7);
}

#[test]
fn numbers_are_written_with_their_types() {
    assert_eq!(LitInt::suffixed(10_u8).text(), "10u8");
    assert_eq!(LitInt::suffixed(-1_i64).text(), "-1i64");
    assert_eq!(LitInt::unsuffixed(10_u8).text(), "10");
    assert_eq!(LitFloat::suffixed(0.5_f32).unwrap().text(), "0.5f32");
    assert_eq!(LitFloat::suffixed(1.0_f64).unwrap().text(), "1.0f64");
    assert_eq!(LitFloat::unsuffixed(1.0_f32).unwrap().text(), "1.0");
}

#[test]
fn the_longest_integers_are_written() {
    let style = Style::new().digit_groups(DigitGroups::new().binary(1));
    let ones = format!("0b1{}", "_1".repeat(127));
    assert_eq!(write_integer(u128::MAX, Base::Binary, style), ones);
    let least = format!("-0b1{}", "_0".repeat(127));
    assert_eq!(write_integer(i128::MIN, Base::Binary, style), least);
}

#[test]
fn a_long_raw_string_has_many_hashes() {
    let value = format!("{}\"{}", "a".repeat(300), "#".repeat(100));
    let hashes = "#".repeat(101);
    let expected = format!("r{hashes}\"{value}\"{hashes}");
    assert_eq!(write_raw_str(&value), Some(expected));
}

#[test]
fn columns_in_bytes_are_those_of_whole_characters() {
    let index = LineIndex::new("a\né");
    let byte = |line, column| index.byte_of_bytes(LineColumn { line, column });
    assert_eq!(byte(2, 1), Some(2));
    assert_eq!(byte(2, 2), None);
    assert_eq!(byte(2, 3), Some(4));
    assert_eq!(LineColumn { line: 2, column: 5 }.to_string(), "2:5");
}

#[test]
fn kinds_have_names() {
    assert_eq!(Kind::Str.to_string(), "string literal");
    assert_eq!(Kind::CStr.to_string(), "C string literal");
    assert_eq!(Kind::Byte.to_string(), "byte literal");
}

#[test]
fn settings_keep_long_names_and_a_minus_before_zero() {
    let entries = parse_settings("abcdefgh1 = -0, abcdefgh2 = 0").unwrap();
    let found: Vec<_> = entries
        .iter()
        .map(|it| (it.name, it.value.text()))
        .collect();
    assert_eq!(found, [("abcdefgh1", "-0"), ("abcdefgh2", "0")]);
    let error = parse_settings("a = 1, a = 2").unwrap_err().shifted(100);
    assert_eq!(error.to_string(), "repeated name `a` at byte 107");
}

#[test]
fn a_name_in_another_case_is_missing() {
    let read = Settings::read("Port = 1  ").unwrap();
    assert_eq!(read.get("Port").unwrap().value_range, 7..8);
    assert!(read.get("port").is_none());
    let error = read.missing_error(Key::new("port", "an integer"));
    assert_eq!(error.range(), 10..10);
}

#[test]
fn ranges_of_values_in_texts() {
    let literal = LitStr::parse("\"a\\\n  b\\n\"").unwrap();
    assert_eq!(
        (literal.text_range(0..1), literal.text_range(0..2)),
        (1..2, 1..7)
    );
    assert_eq!(
        (literal.text_range(1..3), literal.text_range(1..1)),
        (6..9, 6..6)
    );
    assert_eq!(
        (literal.text_range(3..3), literal.text_range(9..12)),
        (9..9, 9..9)
    );
    let places = literal.offset_map();
    for lo in 0..5 {
        for hi in 0..5 {
            assert_eq!(
                places.text_range(lo..hi),
                literal.text_range(lo..hi),
                "{lo}..{hi}"
            );
        }
    }
}
