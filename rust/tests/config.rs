//! Tests of configuration files. If a text is valid TOML too, the expected values and error positions come from Python's `tomllib`.
//! The expected values of literals that TOML doesn't have come from rustc, which compiles the same literals.

use navyspindle::{
    parse_config, parse_settings, Key, Lit, Part, SettingError, SettingErrorKind, Settings,
    SyntaxErrorKind,
};
use std::ops::Range;

/// A value that `tomllib` returns.
#[derive(Clone, Copy)]
enum Toml {
    Int(i64),
    Float(f64),
    Bool(bool),
    Str(&'static str),
}

use Toml::{Bool, Float, Int, Str};

fn value(name: &'static str) -> Key {
    Key::new(name, "a value")
}

/// Checks that the settings of `text` have these names, in this order, and these values.
fn holds(text: &str, wanted: &[(&'static str, Toml)]) {
    let read = Settings::read_config(text).unwrap_or_else(|error| panic!("{text:?}: {error}"));
    let names: Vec<&str> = read.entries().iter().map(|entry| entry.name).collect();
    let wanted_names: Vec<&str> = wanted.iter().map(|(name, _)| *name).collect();
    assert_eq!(names, wanted_names, "{text:?}");
    for entry in read.entries() {
        assert_eq!(&text[entry.name_range.clone()], entry.name, "{text:?}");
        assert_eq!(
            Lit::of_text(&text[entry.value_range.clone()]),
            entry.value,
            "{text:?}"
        );
    }
    for &(name, toml) in wanted {
        let is_it = match toml {
            Int(it) => read.number::<i64>(value(name)) == Ok(Some(it)),
            Float(it) => read.number::<f64>(value(name)) == Ok(Some(it)),
            Bool(it) => read.bool(value(name)) == Ok(Some(it)),
            Str(it) => {
                read.string(value(name)).map(|it| it.map(String::from)) == Ok(Some(it.to_owned()))
            }
        };
        assert!(is_it, "{name} of {text:?}");
    }
}

/// The expected values are those of `tomllib` in Python 3.11.7. The names of its nested tables are joined with dots.
#[test]
fn texts_that_are_toml_too() {
    let a_and_b: &[(&str, Toml)] = &[("a", Int(1)), ("b", Int(2))];
    holds("a = 1", &[("a", Int(1))]);
    holds("a = 1\n", &[("a", Int(1))]);
    holds("a = 1\nb = 2\n", a_and_b);
    holds("\n\na = 1\n\n\nb = 2\n\n", a_and_b);
    holds("a = 1\r\nb = 2\r\n", a_and_b);
    holds("  a = 1  \n\tb = 2\t\n", a_and_b);
    holds("a=1\nb=2", a_and_b);
    holds("", &[]);
    holds("\n", &[]);
    holds(
        "server.port = 8080\nserver.host = \"a\"\ntitle = \"t\"",
        &[
            ("server.port", Int(8080)),
            ("server.host", Str("a")),
            ("title", Str("t")),
        ],
    );
    holds(
        "a.b.c = 1\na.b.d = -2",
        &[("a.b.c", Int(1)), ("a.b.d", Int(-2))],
    );
    holds(
        "a = true\nb = false",
        &[("a", Bool(true)), ("b", Bool(false))],
    );
    holds(r#"a = "x\ty\n\\\"z""#, &[("a", Str("x\ty\n\\\"z"))]);
    holds(
        "true = 1\n_ = 2\na_1 = 3",
        &[("true", Int(1)), ("_", Int(2)), ("a_1", Int(3))],
    );
    holds(
        "a = 1_000\nb = 0xFF\nc = 0o17\nd = 0b101\ne = -7\nf = 0",
        &[
            ("a", Int(1000)),
            ("b", Int(255)),
            ("c", Int(15)),
            ("d", Int(5)),
            ("e", Int(-7)),
            ("f", Int(0)),
        ],
    );
    holds(
        "a = 1.5\nb = -0.25\nc = 1e3\nd = 6.25e-2\ne = 1_0.5",
        &[
            ("a", Float(1.5)),
            ("b", Float(-0.25)),
            ("c", Float(1000.0)),
            ("d", Float(0.0625)),
            ("e", Float(10.5)),
        ],
    );
}

/// `serde` accepts an integer for an `f64` too. The value is that of Rust's `as`.
#[test]
fn an_integer_is_a_float_where_one_is_expected() {
    let float = |text: &str| {
        Settings::read_config(text)
            .unwrap()
            .number::<f64>(value("a"))
    };
    let single = |text: &str| Settings::read(text).unwrap().number::<f32>(value("a"));
    assert_eq!(float("a = 1"), Ok(Some(1.0)));
    assert_eq!(float("a = -7"), Ok(Some(-7.0)));
    assert_eq!(float("a = 0xFF_FF"), Ok(Some(f64::from(0xFF_FF))));
    let large = i64::MAX as f64;
    assert_eq!(float("a = 9223372036854775807"), Ok(Some(large)));
    assert_eq!(
        float("a = 9007199254740993"),
        Ok(Some(9007199254740993i64 as f64))
    );
    let largest = format!("a = {}", u128::MAX);
    assert_eq!(float(&largest), Ok(Some(u128::MAX as f64)));
    assert_eq!(single("a = 16777217"), Ok(Some(16777217i32 as f32)));
    // `u128::MAX as f32` is infinite.
    let error = single(&largest).unwrap_err().to_string();
    assert_eq!(
        error,
        "a: expected a value: number out of range for f32 at byte 4"
    );
    // A suffix of another type is still rejected.
    assert_eq!(float("a = 1f64"), Ok(Some(1.0)));
    assert!(float("a = 1u8").is_err() && float("a = 1f32").is_err());
    assert!(float("a = 0x1f32").is_ok_and(|it| it == Some(f64::from(0x1f32))));
    let whole = Settings::read("a = 1.0").unwrap().number::<u8>(value("a"));
    assert!(whole.is_err());
}

/// Returns the kind of an error of syntax.
fn syntax(error: &SettingError) -> SyntaxErrorKind {
    match error.kind() {
        SettingErrorKind::Syntax(kind) => *kind,
        SettingErrorKind::Repeated(_) => SyntaxErrorKind::Repeated,
        other => panic!("{other:?}"),
    }
}

/// Returns the kind and the byte offset of the error in the text.
fn error_of(text: &str) -> (SyntaxErrorKind, usize) {
    let error = parse_config(text).expect_err(text);
    (syntax(&error), error.range().start)
}

/// `tomllib` rejects each of these texts at the line and column in its message, or at the text's end.
#[test]
fn texts_that_toml_rejects_too() {
    let missed = |part| SyntaxErrorKind::Expected(part);
    let ended = |part| SyntaxErrorKind::EndOfInput(part);
    // `tomllib` prints "Expected newline or end of document after a statement (at line 1, column 7)".
    assert_eq!(error_of("a = 1 b = 2"), (missed(Part::Comma), 6));
    assert_eq!(error_of("a = 1 2"), (missed(Part::Comma), 6));
    // `tomllib` prints "Expected '=' after a key in a key/value pair (at line 1, column 3)", and "(at end of document)".
    assert_eq!(error_of("a 1"), (missed(Part::Equals), 2));
    assert_eq!(error_of("a"), (ended(Part::Equals), 1));
    // `tomllib` prints "Invalid value (at line 1, column 5)", and "(at end of document)".
    assert_eq!(error_of("a = b"), (missed(Part::Literal), 4));
    assert_eq!(error_of("a ="), (ended(Part::Literal), 3));
    // `tomllib` prints "Invalid statement (at line 1, column 1)", and "(at line 2, column 1)".
    assert_eq!(error_of("= 1"), (missed(Part::Name), 0));
    assert_eq!(error_of(".a = 1"), (missed(Part::Name), 0));
    assert_eq!(error_of("a = 1\n= 2"), (missed(Part::Name), 6));
    // `tomllib` prints "Invalid initial character for a key part (at line 1, column 4)", and "(at line 1, column 3)".
    assert_eq!(error_of("a. = 1"), (missed(Part::Name), 3));
    assert_eq!(error_of("a..b = 1"), (missed(Part::Name), 2));
    // `tomllib` prints "Cannot overwrite a value".
    assert_eq!(error_of("a = 1\na = 2"), (SyntaxErrorKind::Repeated, 6));
    assert_eq!(error_of("a.b = 1\na.b = 2"), (SyntaxErrorKind::Repeated, 8));
}

#[test]
fn commas_and_line_ends() {
    let two: &[(&str, Toml)] = &[("a", Int(1)), ("b", Int(2))];
    for between in [
        ",",
        ", ",
        "\n",
        ",\n",
        "\n,",
        "\n,\n",
        ",\n\n",
        " // one\n",
        ", // one\n// two\n\n",
        "/* one */,",
        "/* one */\n",
        "\n/* one */",
        "/* one\n*/",
        "\u{85},",
        "\r\n",
        ",\r\n",
    ] {
        holds(&format!("a = 1{between}b = 2"), two);
        holds(&format!("a = 1{between}b = 2,"), two);
        holds(&format!("a = 1{between}b = 2\n,\n"), two);
    }
    // Without an LF a comma is required, even if another character that ends lines separates the settings.
    for between in [
        " ",
        "\t",
        "/* one */",
        "\r",
        "\u{85}",
        "\u{2028}",
        "\u{b}",
        "\u{c}",
    ] {
        let text = format!("a = 1{between}b = 2");
        let place = text.len() - "b = 2".len();
        assert_eq!(
            error_of(&text),
            (SyntaxErrorKind::Expected(Part::Comma), place),
            "{text:?}"
        );
    }
    // Two commas in sequence, and a comma without a setting before it, are errors.
    assert_eq!(
        error_of("a = 1,, b = 2"),
        (SyntaxErrorKind::Expected(Part::Name), 6)
    );
    assert_eq!(
        error_of("a = 1\n,\n, b = 2"),
        (SyntaxErrorKind::Expected(Part::Name), 8)
    );
    assert_eq!(
        error_of(",a = 1"),
        (SyntaxErrorKind::Expected(Part::Name), 0)
    );
}

#[test]
fn a_line_end_inside_a_value_ends_nothing() {
    for string in ["\"x\ny\"", "r\"\n\"", "b\"\n\"", "\"\\\n\"", "- // one\n1"] {
        let text = format!("a = {string} b = 2");
        let place = text.len() - "b = 2".len();
        assert_eq!(
            error_of(&text),
            (SyntaxErrorKind::Expected(Part::Comma), place),
            "{text:?}"
        );
        assert_eq!(
            parse_config(&format!("a = {string}\nb = 2"))
                .expect("two")
                .len(),
            2
        );
    }
    // A line end before the value doesn't end the value's line either.
    assert_eq!(
        error_of("a\n=\n1 b = 2"),
        (SyntaxErrorKind::Expected(Part::Comma), 6)
    );
}

#[test]
fn dots() {
    let name = SyntaxErrorKind::Expected(Part::Name);
    for text in [
        "a . b = 1",
        "a .b = 1",
        "a/**/.b = 1",
        "a\n.b = 1",
        "a. b = 1",
        "a.\nb = 1",
        "a./**/b = 1",
        "a . = 1",
        "a .",
    ] {
        let dot = text.find('.').expect("a dot");
        let error = parse_config(text).expect_err(text);
        assert_eq!(
            (syntax(&error), error.range()),
            (name, dot..dot + 1),
            "{text:?}"
        );
    }
    assert_eq!(
        parse_config("x.a . b = 1").expect_err("a dot").range(),
        4..5
    );
    assert_eq!(parse_config("a.b .c = 1").expect_err("a dot").range(), 4..5);
    let ended = parse_config("a.b.").expect_err("no name");
    assert_eq!(
        (syntax(&ended), ended.range()),
        (SyntaxErrorKind::EndOfInput(Part::Name), 4..4)
    );
    // The range of the error is the whole token or group in place of the name.
    for (text, stands) in [
        ("a.12 = 1", "12"),
        ("a.(b [c]) = 1", "(b [c])"),
        ("a.\"b\" = 1", "\"b\""),
        ("a.b.- = 1", "-"),
    ] {
        let error = parse_config(text).expect_err(text);
        assert_eq!(
            (syntax(&error), &text[error.range()]),
            (name, stands),
            "{text:?}"
        );
    }
    // Two names that differ only before the dot are different.
    assert_eq!(parse_config("a.x = 1\nb.x = 2").expect("two").len(), 2);
    // A name that continues another name after a dot is a different name.
    assert_eq!(
        parse_config("a = 1\na.b = 2\na.b.c = 3")
            .expect("three")
            .len(),
        3
    );
    assert_eq!(parse_config("é.ß = 1").expect("one")[0].name, "é.ß");
    // After a value, a dot doesn't begin a name either.
    assert_eq!(error_of("a = 1\n.b = 2"), (name, 6));
    assert_eq!(
        error_of("a = \"1\".b = 2"),
        (SyntaxErrorKind::Expected(Part::Comma), 7)
    );
}

#[test]
fn a_byte_order_mark_is_passed_and_counted() {
    let text = "\u{feff}a.b = 1\nc = 'é'";
    let entries = parse_config(text).expect("two");
    assert_eq!(
        (
            entries[0].name_range.clone(),
            entries[0].value_range.clone()
        ),
        (3..6, 9..10)
    );
    assert_eq!(
        (
            entries[1].name_range.clone(),
            entries[1].value_range.clone()
        ),
        (11..12, 15..19)
    );
    for text in [
        "a = 1 b",
        "a = 1\na = 2",
        "a = 'b",
        "a = (",
        "a = 1)",
        "a =",
        "a. = 1",
        "a = [1 2] b",
        "a = #",
    ] {
        let (plain, marked) = (
            parse_config(text).expect_err(text),
            parse_config(&format!("\u{feff}{text}")).expect_err(text),
        );
        assert_eq!(marked.kind(), plain.kind(), "{text:?}");
        let range = plain.range();
        assert_eq!(marked.range(), range.start + 3..range.end + 3, "{text:?}");
    }
    // Only one byte order mark is skipped, and only at the start of the text.
    assert_eq!(
        error_of("\u{feff}\u{feff}a = 1"),
        (SyntaxErrorKind::StrayCharacter, 3)
    );
    assert_eq!(
        error_of("a = 1\n\u{feff}b = 1"),
        (SyntaxErrorKind::StrayCharacter, 6)
    );
    let missing = Settings::read_config("\u{feff}a = 1")
        .expect("one")
        .missing_error(value("b"));
    assert_eq!(missing.range(), 8..8);
}

/// As in `parse_settings`, an unclosed group anywhere in the text is reported before any other error.
#[test]
fn groups_are_asked_first() {
    for text in [")", "a = 1\nb c )", "(a = 1", "a b (]", "a = [1"] {
        let (found, wanted) = (
            parse_config(text).expect_err(text),
            parse_settings(text).expect_err(text),
        );
        assert_eq!(found, wanted, "{text:?}");
    }
    assert_eq!(error_of(")"), (SyntaxErrorKind::UnmatchedClose, 0));
    assert_eq!(error_of("(a = 1"), (SyntaxErrorKind::UnclosedGroup, 0));
    assert_eq!(error_of("a b (]"), (SyntaxErrorKind::UnmatchedClose, 5));
}

/// A text of settings is a valid configuration file too, with the same entries.
#[test]
fn settings_are_a_configuration() {
    for text in [
        "a = 1",
        "a = 1,",
        "a = 1, b = -2.5, // c\nc = \"\\u{e9}\",",
        "true = '\\q', x = 0b12",
        "",
    ] {
        let read = parse_settings(text).expect(text);
        assert_eq!(parse_config(text).expect(text), read);
    }
}

/// Checks that the literal in a configuration file has the value that rustc gives it.
macro_rules! both {
    ($reader:ident: $($literal:literal)*) => {
        $(
            let text = concat!("x.y = ", stringify!($literal), "\n");
            let read = Settings::read_config(text).expect(text);
            let found = read.$reader(value("x.y")).expect(text).expect(text);
            assert_eq!(found, $literal.to_owned(), "{text}");
        )*
    };
}

#[test]
fn values_are_those_of_rustc() {
    both!(char: 'a' '\'' '"' '\u{10ffff}' '\x7f' '\0' 'é');
    both!(byte: b'a' b'\xff' b'\'' b'\\' b'\0');
    both!(c_string: c"" c"a\xff" c"\u{e9}é" cr"\");
    both!(bool: true false);
    both!(string: "" "\u{e9}" r#"""# "a\
        b");
    let text = concat!(
        "a = ",
        stringify!(
            b"\xff\0\
        b"
        ),
        "\nb = ",
        stringify!(br#"""#)
    );
    let read = Settings::read_config(text).expect(text);
    assert_eq!(
        read.byte_string(value("a")).expect(text).as_deref(),
        Some(&b"\xff\0b"[..])
    );
    assert_eq!(
        read.byte_string(value("b")).expect(text).as_deref(),
        Some(&b"\""[..])
    );
}

#[test]
fn a_value_of_another_kind_is_an_error_of_each_reader() {
    let kinds = ["\"a\"", "b\"a\"", "c\"a\"", "'a'", "b'a'", "1", "true"];
    for (at, kind) in kinds.iter().enumerate() {
        let text = format!("a = {kind}");
        let read = Settings::read_config(&text).expect("one");
        let a = value("a");
        let answers = [
            read.string(a).map(|_| ()),
            read.byte_string(a).map(|_| ()),
            read.c_string(a).map(|_| ()),
            read.char(a).map(|_| ()),
            read.byte(a).map(|_| ()),
            read.number::<u8>(a).map(|_| ()),
            read.bool(a).map(|_| ()),
        ];
        for (asked, answer) in answers.into_iter().enumerate() {
            if asked == at {
                assert_eq!(answer, Ok(()), "{kind}");
            } else {
                let error = answer.expect_err(kind);
                assert_eq!(
                    (error.kind(), error.range()),
                    (&SettingErrorKind::Kind(a), 4..text.len()),
                    "{kind}"
                );
            }
        }
    }
}

/// Returns the error of the method that reads the value's kind, such as `char` for a character literal.
fn rejected(text: &str) -> (SettingErrorKind, Range<usize>) {
    let read = Settings::read_config(text).expect(text);
    let a = value("a");
    let answer = match &text[4..5] {
        "'" => read.char(a).map(|_| ()),
        "c" => read.c_string(a).map(|_| ()),
        _ if text[5..].starts_with('"') => read.byte_string(a).map(|_| ()),
        _ => read.byte(a).map(|_| ()),
    };
    let error = answer.expect_err(text);
    (error.kind().clone(), error.range())
}

#[test]
fn a_value_with_a_suffix_is_an_error() {
    let suffix = SettingErrorKind::Suffix(value("a"));
    assert_eq!(rejected("a = 'b'x"), (suffix.clone(), 7..8));
    assert_eq!(rejected("a = b'b'xy"), (suffix.clone(), 8..10));
    assert_eq!(rejected("a = b\"b\"x"), (suffix.clone(), 8..9));
    assert_eq!(rejected("a = c\"b\"x"), (suffix, 8..9));
}

/// rustc rejects each of these literals: "unknown character escape: `q`", "unicode escape in byte string", "null characters in C
/// string literals are not supported", "unknown byte escape: `q`". The error is at the first character that can't continue a
/// literal.
#[test]
fn a_value_that_rust_rejects_is_an_error_at_its_place() {
    for (text, range) in [
        ("a = '\\q'", 6..7),
        ("a = b'\\u{61}'", 7..8),
        ("a = c\"\\0\"", 7..8),
        ("a = b\"\\q\"", 7..8),
    ] {
        let (kind, found) = rejected(text);
        assert!(
            matches!(kind, SettingErrorKind::Literal(..)),
            "{text}: {kind:?}"
        );
        assert_eq!(found, range, "{text}");
    }
}

/// Other formats allow what this format rejects: comments of TOML, YAML and INI files, tables and arrays of TOML, names with `-` (such
/// as `cargo-features`), and strings without double quotes.
#[test]
fn errors_tell_what_other_formats_write() {
    let help = |text: &str| {
        let error = parse_config(text).expect_err(text);
        let message = error.to_string();
        let read = Settings::read_config(text).unwrap_err();
        assert_eq!(
            (read.help(), read.to_string()),
            (error.help(), message.clone())
        );
        let place = format!("{} at byte {}", error.kind(), error.offset());
        match error.help() {
            Some(help) => assert_eq!(message, format!("{place}: {help}")),
            None => assert_eq!(message, place),
        }
        error.help().unwrap_or_default()
    };
    let comment = "a comment begins with `//`";
    for text in [
        "# one",
        "a = 1 # one",
        "a = 1\n  # it's one",
        "a = 1\n\t# it's one",
        "\t; one\na = 1",
        "\u{feff}# (one",
        "# ‘one’\na = 1",
        "a # one\n= 1",
        "; one\na = 1",
        "a =\n# one\n1",
        "a = 1, # one",
    ] {
        assert_eq!(help(text), comment, "{text:?}");
    }
    assert_eq!(
        help("/// one\na = 1"),
        "a comment begins with `//`, not with `///`"
    );
    let string = "a string has double quotes";
    for text in [
        "a = localhost",
        "a = /usr/bin\nb = yes",
        "a = ‘b’",
        "a = “b”",
        "a = `b`",
        r"a = C:\dir",
        "a = #fff",
        "a = 1.2.3",
        "a = 2024-01-01",
        "a = 10%",
        "a = null",
        "a = ’b’",
        "a = ”b”",
        "a = „b“",
        "a = «b»",
        "a = »b«",
        "a = _b",
        "a = Falsehood",
        "a = ''",
        "a = '10.0.0.1'",
        "a = '",
        "a = '-b'",
    ] {
        let expected = if text.starts_with("a = /") {
            ""
        } else {
            string
        };
        assert_eq!(help(text), expected, "{text:?}");
    }
    for text in ["a = 'bc'", "a = 'bc"] {
        let message = parse_config(text).unwrap_err().to_string();
        assert!(message.contains(string), "{message}");
    }
    let value_help = |text| {
        let read = Settings::read_config(text).expect(text);
        read.string(value("a")).expect_err(text).help()
    };
    assert_eq!(value_help("a = 'b'"), Some(string));
    assert_eq!(value_help("a = 1"), None);
    assert_eq!(value_help("a = b'c'"), None);
    assert_eq!(help("a = True"), "write `true` or `false`");
    assert_eq!(help("a = FALSE"), "write `true` or `false`");
    assert_eq!(
        help("[server]\nport = 1"),
        "there are no sections: write `section.name = ..`"
    );
    assert_eq!(help("a = [1, 2]"), "there are no arrays");
    assert_eq!(help("a = { b = 1 }"), "there are no tables");
    assert_eq!(help("my-host = \"a\""), "a name has no `-`: use `_`");
    assert_eq!(help("é-host = \"a\""), "a name has no `-`: use `_`");
    assert_eq!(help("\"a\" = 1"), "a name has no quotes");
    assert_eq!(help("'a' = 1"), "a name has no quotes");
    assert_eq!(help("1st = 1"), "a name begins with a letter or `_`");
    assert_eq!(help("a = +1"), "a number has no `+`");
    assert_eq!(help("a = .5"), "a float begins with a digit, as in `0.5`");
    // 2 to the power of 128.
    let large = "340282366920938463463374607431768211456";
    let bits = "an integer has at most 128 bits";
    assert_eq!(help(&format!("a = -{large}")), bits);
    assert_eq!(help(&format!("a = - {large}_u8")), bits);
    let between = "a comma or a line end is between two settings";
    assert_eq!(help("a = 1 b = 2"), between);
    assert_eq!(help("a = 1; b = 2"), between);
    assert_eq!(help("a = 1 /* one */ b = 2"), between);
    assert_eq!(help("a = 1/* one */b = 2"), between);
    for text in [
        "a 1",
        "a = -b",
        "a = --1",
        "a = -'1'",
        "a - b = 1",
        "a = 1,, b = 2",
        "a = ",
        "a = \"b",
        "a = (1)",
        "a = 1 }",
        "//! one\na = 1",
        "/** one */\na = 1",
    ] {
        assert_eq!(help(text), "", "{text:?}");
    }
}

/// After a minus, each number up to 128 bits is a literal, so the hint for larger integers doesn't follow a smaller number.
#[test]
fn numbers_after_a_minus_are_literals() {
    let mut texts = vec![
        String::from("a = -0"),
        String::from("a = -1"),
        String::from("a = -9"),
    ];
    for _ in 0..4 {
        for text in std::mem::take(&mut texts) {
            texts.extend("019xobefu_.+-".chars().map(|c| format!("{text}{c}")));
            if let Err(error) = parse_config(&text) {
                assert_ne!(
                    syntax(&error),
                    SyntaxErrorKind::Expected(Part::Literal),
                    "{text}"
                );
                assert_ne!(
                    error.help(),
                    Some("an integer has at most 128 bits"),
                    "{text}"
                );
            }
        }
    }
    assert_eq!(texts.len(), 3 * 13 * 13 * 13 * 13);
    // 2 to the power of 128, minus 1.
    let most = "a = -340282366920938463463374607431768211455";
    assert_eq!(parse_config(most).map(|entries| entries.len()), Ok(1));
}

#[test]
fn hints_of_settings_between_commas() {
    let help = |text: &str| parse_settings(text).expect_err(text).help();
    assert_eq!(help("a = 1 b = 2"), Some("a comma is between two settings"));
    assert_eq!(help("a.b = 1"), Some("a name has no `.`: use `_`"));
    assert_eq!(help("a . b = 1"), None);
    assert_eq!(help("[a]\nb = 1"), Some("there are no sections"));
    let error = Settings::read("a = 1 b = 2").unwrap_err().shifted(10);
    let message = "expected `,` at byte 16: a comma is between two settings";
    assert_eq!(error.to_string(), message);
    let repeated = Settings::read("a = 1, a = 2").unwrap_err();
    assert_eq!(repeated.help(), None);
}
