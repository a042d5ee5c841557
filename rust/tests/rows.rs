//! Tests of the values of literals, in rows of texts and expected values.

use navyspindle::{
    parse_list, parse_settings, source, FlawKind, Kind, Lit, LitBool, LitByte, LitByteStr, LitChar,
    LitFloat, LitInt, LitStr, NumberType, ParseErrorKind, SyntaxErrorKind,
};
use std::borrow::Cow;
use std::collections::HashSet;

fn text_of(text: &str) -> Option<String> {
    Some(match Lit::of_text(text) {
        Lit::Str(l) => format!("Str {:?} {}", l.value(), l.suffix()),
        Lit::ByteStr(l) => format!("ByteStr {:?} {}", l.value(), l.suffix()),
        Lit::CStr(l) => format!("CStr {:?} {}", l.value(), l.suffix()),
        Lit::Byte(l) => format!("Byte {} {}", l.value(), l.suffix()),
        Lit::Char(l) => format!("Char {:?} {}", l.value(), l.suffix()),
        Lit::Int(l) => format!("Int {} {}", l.base10_digits(), l.suffix()),
        Lit::Float(l) => format!("Float {} {}", l.base10_digits(), l.suffix()),
        Lit::Bool(l) => format!("Bool {} {}", l.value(), l.suffix()),
        _ => return None,
    })
}

#[test]
fn one_literal() {
    let rows: &[(&str, Option<&str>)] = &[
        (r#""""#, Some("Str \"\" ")),
        (r#""a\x41\n"q"#, Some("Str \"aA\\n\" q")),
        ("\"a\\\n   b\"", Some("Str \"ab\" ")),
        ("\"a\r\nb\"", Some("Str \"a\\nb\" ")),
        (r#""\u{1F600}\u{e9}""#, Some("Str \"😀é\" ")),
        (r###"r##"a"#\n"##x"###, Some("Str \"a\\\"#\\\\n\" x")),
        (r#"b"a\xff\0""#, Some("ByteStr [97, 255, 0] ")),
        (r#"c"\u{e9}\xff""#, Some("CStr [195, 169, 255] ")),
        (r"b'\''", Some("Byte 39 ")),
        (r"'\u{2764}'s", Some("Char '❤' s")),
        ("0xFF_u8", Some("Int 255 u8")),
        ("-0b1_0", Some("Int -2 ")),
        ("007", Some("Int 7 ")),
        (
            "340282366920938463463374607431768211455",
            Some("Int 340282366920938463463374607431768211455 "),
        ),
        (
            "0xffff_ffff_ffff_ffff_ffff_ffff_ffff_ffffu128",
            Some("Int 340282366920938463463374607431768211455 u128"),
        ),
        ("340282366920938463463374607431768211456", None),
        ("1_0.5E+1_0f64", Some("Float 10.5e10 f64")),
        ("-2.0", Some("Float -2.0 ")),
        ("true", Some("Bool true ")),
        ("truth", None),
        ("", None),
        (r#""\q""#, None),
        (r#"c"a\0""#, None),
        ("'ab'", None),
        ("0x", Some("Float 0 x")),
    ];
    for (text, expected) in rows {
        assert_eq!(text_of(text).as_deref(), *expected, "{text}");
    }
}

#[test]
fn what_rust_rejects_is_read_and_not_parsed() {
    let texts = [
        "0x",
        "0b102",
        "0o9",
        "1e",
        "1.5e",
        "0b1e3",
        "'''",
        "1.foo",
        r#"r"a"b""#,
        "-0x",
        "\"a\r\nb\"",
        "'\n'",
        "1.e5",
        "1e_+5",
        "\"a\"_",
        "\"a\"1",
    ];
    for text in texts {
        assert_ne!(Lit::of_text(text).kind(), Kind::Verbatim, "{text}");
        let error = Lit::parse(text).unwrap_err();
        assert!(matches!(error.kind(), ParseErrorKind::Flaw(_)), "{text}");
        assert!(error.piece().start <= error.range().start, "{text}");
    }
    for text in ["-1", "-0xFFu8", "-1.5e+3", "-1f32", "1.", "-1."] {
        assert_eq!(Lit::parse(text).unwrap().text(), text);
    }
    for text in ["--1", "- 1", "-", "-\"a\"", "-true", "+1", " 1", "1 "] {
        assert!(Lit::parse(text).is_err(), "{text}");
    }
}

#[test]
fn what_rust_takes_in_a_file() {
    let taken = [
        "\"a\r\nb\"",
        "r\"\r\n\"",
        "b\"\\\r\n \"",
        "c\"\r\n\"",
        "1",
        "-1.5",
    ];
    for text in taken {
        assert_eq!(Lit::of_text(text).check(), Ok(()), "{text:?}");
    }
    let rejected = ["'''", "0x", "r\"a\rb\"", "\"a\"1", "", "\"\\q\""];
    for text in rejected {
        let error = Lit::of_text(text).check().unwrap_err();
        assert_eq!(error, Lit::parse(text).unwrap_err(), "{text:?}");
    }
}

#[test]
fn of_one_kind() {
    assert_eq!(LitStr::parse("\"a\"").unwrap().value(), "a");
    assert_eq!("12".parse::<LitInt>().unwrap().base10_parse(), Ok(12));
    assert_eq!(
        LitFloat::try_from(String::from("1.5")).unwrap().text(),
        "1.5"
    );
    let error = LitStr::parse("b\"a\"").unwrap_err();
    assert_eq!(
        error.to_string(),
        "expected string literal, found byte string literal at byte 0"
    );
    assert_eq!(error.range(), 0..4);
    assert_eq!(
        LitInt::parse("1x\"").unwrap_err().kind(),
        FlawKind::BadSuffix
    );
    let literal = Lit::from(LitChar::parse("'a'").unwrap());
    assert_eq!(LitByte::try_from(literal.clone()).unwrap_err(), literal);
    assert_eq!(LitChar::try_from(literal).unwrap().value(), 'a');
}

#[test]
fn parts() {
    let raw = |text| {
        let literal = LitStr::parse(text).unwrap();
        (literal.is_raw(), literal.hashes(), literal.body_range())
    };
    assert_eq!(raw("\"ab\"c"), (false, 0, 1..3));
    assert_eq!(raw("r\"\""), (true, 0, 2..2));
    assert_eq!(raw("r##\"a\"#\"##x"), (true, 2, 4..7));
    let int = |text| {
        let literal = LitInt::parse(text).unwrap();
        let type_suffix = literal.type_suffix().map(NumberType::as_str);
        (
            literal.base().prefix(),
            literal.digits().to_owned(),
            type_suffix,
        )
    };
    assert_eq!(int("0"), ("", "0".to_owned(), None));
    assert_eq!(int("-0b1_0i8"), ("0b", "1_0".to_owned(), Some("i8")));
    assert_eq!(int("0o17usize"), ("0o", "17".to_owned(), Some("usize")));
    assert_eq!(int("1_f64"), ("", "1_".to_owned(), Some("f64")));
    assert_eq!(int("1u7"), ("", "1".to_owned(), None));
    let float = |text| {
        let literal = LitFloat::parse(text).unwrap();
        let part = |part: Option<&str>| part.map(str::to_owned);
        let fraction = part(literal.fractional_part());
        (
            literal.integer_part().to_owned(),
            fraction,
            part(literal.exponent_part()),
        )
    };
    let of = |text: &str| Some(text.to_owned());
    assert_eq!(
        float("-1_0.5_0E+3_f32"),
        ("1_0".to_owned(), of("5_0"), of("+3_"))
    );
    assert_eq!(float("1."), ("1".to_owned(), of(""), None));
    assert_eq!(float("2e-5"), ("2".to_owned(), None, of("-5")));
}

#[test]
fn what_is_owned() {
    fn is_static<T: 'static>(it: T) -> T {
        it
    }
    let text = String::from("\"a\\n\"b");
    let owned = is_static(Lit::parse(&text).unwrap().into_owned());
    assert_eq!((owned.text(), owned.suffix()), (&*text, "b"));
    assert_eq!(is_static(owned.clone().into_suffix()), "b");
    let Lit::Str(string) = owned else { panic!() };
    assert_eq!(is_static(string.into_value()), "a\n");
    let plain = is_static(LitStr::try_from(String::from("r#\"ab\"#")).unwrap());
    assert_eq!(is_static(plain.into_value()), "ab");
    // The value of a literal with a borrowed text is borrowed too.
    let value = LitByteStr::parse("b\"ab\"").unwrap().into_value();
    assert!(matches!(value, Cow::Borrowed(b"ab")));
    assert!(matches!(
        LitBool::parse("true").unwrap().into_text(),
        Cow::Borrowed("true")
    ));
}

#[test]
fn a_megabyte_of_escapes() {
    let text = format!("\"{}\"", "\\u{e9}a".repeat(150_000));
    let places = LitStr::parse(&text).unwrap().offset_map();
    for byte in (0..450_000).step_by(4) {
        let unit = 7 * (byte / 3) + 1;
        let expected = if byte % 3 == 2 {
            unit + 6..unit + 7
        } else {
            unit..unit + 6
        };
        assert_eq!(places.byte_range(byte), expected, "{byte}");
    }
    assert_eq!(places.byte_range(450_000), 1_050_001..1_050_001);
}

#[test]
fn how_they_are_printed() {
    let literal = Lit::parse("0x1F").unwrap();
    assert_eq!(
        format!("{literal:>6}|{literal:<6}|{literal:.2}"),
        "  0x1F|0x1F  |0x"
    );
    assert_eq!(format!("{literal:?}"), "LitInt(\"0x1F\")");
    assert_eq!(format!("{:?}", Lit::of_text("a")), "LitVerbatim(\"a\")");
    assert_eq!(Kind::Float.to_string(), "floating point literal");
}

#[test]
fn of_settings() {
    let read = |text: &str| -> Result<Vec<String>, String> {
        let entries =
            parse_settings(text).map_err(|error| format!("{:?} {error}", error.range()))?;
        let line = |entry: &navyspindle::Entry| {
            let (name, value) = (&entry.name_range, &entry.value_range);
            format!("{}@{name:?} {}@{value:?}", entry.name, entry.value)
        };
        Ok(entries.iter().map(line).collect())
    };
    assert_eq!(read(" /* a */"), Ok(vec![]));
    assert_eq!(
        read("a = 1, true = - 2.5f32,\nc='\\q'"),
        Ok(vec![
            "a@0..1 1@4..5".to_owned(),
            "true@7..11 -2.5f32@14..22".to_owned(),
            "c@24..25 '\\q'@26..30".to_owned(),
        ])
    );
    let rows = [
        ("= 1", "0..1 expected identifier at byte 0"),
        ("a", "1..1 unexpected end of input, expected `=` at byte 1"),
        ("a 1", "2..3 expected `=` at byte 2"),
        (
            "a = ",
            "4..4 unexpected end of input, expected literal at byte 4",
        ),
        (
            "a = b",
            "4..5 expected literal at byte 4: a string has double quotes",
        ),
        ("a = -b", "4..5 expected literal at byte 4"),
        (
            "a = 1 = 2",
            "6..7 expected `,` at byte 6: a comma is between two settings",
        ),
        (
            "a = 1, [b (c)] 2",
            "7..14 expected identifier at byte 7: there are no sections",
        ),
        ("a = 1,,", "6..7 expected identifier at byte 6"),
        ("a = 1, a", "7..8 repeated name `a` at byte 7"),
        ("a = 1, a = 2", "7..8 repeated name `a` at byte 7"),
        (
            "b = 1 'a",
            "6..8 unexpected lifetime: a string has double quotes at byte 6",
        ),
        ("b = \"a", "4..6 unclosed quote at byte 4"),
        ("a (]", "3..4 unmatched closing delimiter at byte 3"),
        ("a ([", "3..4 unclosed group at byte 3"),
    ];
    for (text, error) in rows {
        assert_eq!(read(text), Err(error.to_owned()), "{text}");
    }
    assert!(parse_settings(&"(".repeat(129))
        .unwrap_err()
        .to_string()
        .starts_with("groups nested too deep at byte 128"));
}

#[test]
fn each_kind() {
    let rows = [
        (r#""a""#, Kind::Str),
        (r#"b"a""#, Kind::ByteStr),
        (r#"c"a""#, Kind::CStr),
        ("b'a'", Kind::Byte),
        ("'a'", Kind::Char),
        ("1", Kind::Int),
        ("1.5", Kind::Float),
        ("true", Kind::Bool),
        (r"'\q'", Kind::Verbatim),
    ];
    for (text, kind) in rows {
        assert_eq!(Lit::of_text(text).kind(), kind, "{text}");
        for item in parse_list(text).chain(source(text)) {
            let (range, literal) = item.unwrap();
            assert_eq!((range, literal.kind()), (0..text.len(), kind), "{text}");
            assert_eq!((literal.text(), literal.suffix()), (text, ""));
        }
        assert_eq!((parse_list(text).count(), source(text).count()), (1, 1));
    }
    assert_eq!(HashSet::from(rows.map(|row| row.1)).len(), 9);
}

#[test]
fn equal_by_text() {
    let found: HashSet<Lit> = parse_list("- /* a */ 1 -1 1 '\\q' true 1.0")
        .chain(source("'\\q' 1 true"))
        .map(|item| item.unwrap().1)
        .collect();
    let mut texts: Vec<_> = found.iter().map(Lit::text).collect();
    texts.sort_unstable();
    assert_eq!(texts, [r"'\q'", "-1", "1", "1.0", "true"]);
    assert!(found.contains(&"-1".parse().unwrap()));
}

#[test]
fn plain_bodies_are_borrowed() {
    let Lit::Str(literal) = Lit::parse("\"plain\"").unwrap() else {
        panic!()
    };
    assert!(matches!(literal.value(), Cow::Borrowed("plain")));
    let Lit::Int(literal) = Lit::parse("12u8").unwrap() else {
        panic!()
    };
    assert!(matches!(literal.base10_digits(), Cow::Borrowed("12")));
    assert_eq!(literal.base10_parse::<u8>(), Ok(12));
    assert!(literal.base10_parse::<f64>().is_ok());
}

#[test]
fn a_list() {
    type Read = Result<Vec<(usize, usize, String)>, (SyntaxErrorKind, usize)>;
    let read = |text: &str| -> Read {
        parse_list(text)
            .map(|item| match item {
                Ok((range, literal)) => Ok((range.start, range.end, literal.to_string())),
                Err(error) => Err((error.kind(), error.offset())),
            })
            .collect()
    };
    let of = |lo, hi, text: &str| (lo, hi, text.to_owned());
    assert_eq!(read(""), Ok(vec![]));
    assert_eq!(read(" // c\n /* d */ "), Ok(vec![]));
    assert_eq!(
        read(" 1 'a'\"b\" true"),
        Ok(vec![
            of(1, 2, "1"),
            of(3, 6, "'a'"),
            of(6, 9, "\"b\""),
            of(10, 14, "true")
        ])
    );
    assert_eq!(
        read("-1 - 2.5f32 -/**/3"),
        Ok(vec![of(0, 2, "-1"), of(3, 11, "-2.5f32"), of(12, 18, "-3")])
    );
    assert_eq!(read("1, 2"), Err((SyntaxErrorKind::NotALiteral, 1)));
    assert_eq!(read("1 word"), Err((SyntaxErrorKind::NotALiteral, 2)));
    assert_eq!(read("1 -"), Err((SyntaxErrorKind::NoNumber, 2)));
    assert_eq!(read("1 (2)"), Err((SyntaxErrorKind::Group, 2)));
    assert_eq!(read("[1"), Err((SyntaxErrorKind::Group, 0)));
    assert_eq!(read("1 -{"), Err((SyntaxErrorKind::NoNumber, 2)));
    assert_eq!(read("1 @"), Err((SyntaxErrorKind::NotALiteral, 2)));
    assert_eq!(read("1 )"), Err((SyntaxErrorKind::UnmatchedClose, 2)));
    assert_eq!(read("]"), Err((SyntaxErrorKind::UnmatchedClose, 0)));
    assert_eq!(read("1 /* "), Err((SyntaxErrorKind::UnclosedComment, 2)));
    assert_eq!(read("1 /// d"), Err((SyntaxErrorKind::DocComment, 2)));
    assert_eq!(read("1 \"a"), Err((SyntaxErrorKind::UnclosedQuote, 2)));
    assert_eq!(read("1 'a"), Err((SyntaxErrorKind::Lifetime, 2)));
    assert_eq!(read("1 r#a"), Err((SyntaxErrorKind::RawIdentifier, 2)));
    assert_eq!(read("1 \u{0}"), Err((SyntaxErrorKind::StrayCharacter, 2)));
}

#[test]
fn literals_between_gaps() {
    let literals_of = [
        ("0xFF_u8", "0xFF_u8"),
        ("\"é\\n\"", "\"é\\n\""),
        ("- 1.5", "-1.5"),
        ("-/* a */7", "-7"),
        ("'\\q'", "'\\q'"),
        ("true", "true"),
    ];
    let gaps = [" ", "\n", " /* é */ ", " // \"a\n"];
    let (mut state, mut text, mut expected) = (1_usize, String::new(), Vec::new());
    for _ in 0..500 {
        state = state.wrapping_mul(1103515245).wrapping_add(12345) % (1 << 31);
        let (written, shown) = literals_of[(state >> 8) % literals_of.len()];
        text += gaps[(state >> 16) % gaps.len()];
        expected.push((text.len()..text.len() + written.len(), shown.to_owned()));
        text += written;
    }
    let found: Vec<_> = parse_list(&text)
        .map(|item| item.map(|(range, literal)| (range, literal.to_string())))
        .collect::<Result<_, _>>()
        .unwrap();
    assert_eq!(found, expected);
}

#[test]
fn what_has_no_reading() {
    let most = "340282366920938463463374607431768211455";
    let past = "340282366920938463463374607431768211456";
    let text = format!("{most} {past}u8 '\\q' \"\\q\"x");
    let found: Vec<_> = parse_list(&text).collect::<Result<_, _>>().unwrap();
    let lines: Vec<_> = found
        .iter()
        .map(|(range, literal)| {
            (
                range.clone(),
                literal.kind(),
                literal.text(),
                literal.suffix(),
            )
        })
        .collect();
    assert_eq!(lines[0], (0..39, Kind::Int, most, ""));
    assert_eq!(lines[1].1, Kind::Verbatim);
    assert_eq!(lines[1].2, format!("{past}u8"));
    assert_eq!(lines[2], (82..86, Kind::Verbatim, "'\\q'", ""));
    assert_eq!(lines[3], (87..92, Kind::Verbatim, "\"\\q\"x", ""));
    assert!(matches!(&found[1].1, Lit::Verbatim(literal) if literal.to_string() == lines[1].2));
    assert!(Lit::parse(past).is_err());
    let negative = format!("-{past}");
    let error = parse_list(&negative).next().unwrap().unwrap_err();
    assert_eq!(
        (error.kind(), error.offset()),
        (SyntaxErrorKind::NoNumber, 0)
    );
}

#[test]
fn a_source() {
    let rows = |text: &str| -> Vec<String> {
        source(text)
            .map(|item| match item {
                Ok((range, Lit::Verbatim(_))) => format!("{range:?} no reading"),
                Ok((range, literal)) => format!("{range:?} {literal}"),
                Err(error) => error.to_string(),
            })
            .collect()
    };
    assert_eq!(rows(""), [""; 0]);
    assert_eq!(rows("#!/bin/x \"a\"\nlet a = 1;"), ["21..22 1"]);
    assert_eq!(
        rows("#![a] // \"b\"\n/// \"c\"\n-1 'a true r#x"),
        ["22..23 1", "27..31 true"]
    );
    assert_eq!(
        rows("f(\"a\") #!1 '\\q'"),
        ["2..5 \"a\"", "9..10 1", "11..15 no reading"]
    );
    assert_eq!(
        rows("1 /* "),
        ["0..1 1", "unclosed block comment at byte 2"]
    );
    assert_eq!(rows("1 \"a"), ["0..1 1", "unclosed quote at byte 2"]);
}
