//! Compares styles that are read from settings with the styles of the methods with the same names.
#![cfg(all(feature = "settings", feature = "style"))]

use navyspindle::{Case, DigitGroups, Separator, SettingError, SettingErrorKind, Settings, Style};

fn style(text: &str) -> Result<Style, SettingError> {
    Style::from_settings(&Settings::read(text)?)
}

#[test]
fn each_rule_is_set_by_its_name() {
    let new = Style::new();
    let groups = DigitGroups::new();
    let rows = [
        (r#"hex_digits = "lower""#, new.hex_digits(Case::Lower)),
        (r#"hex_digits = "upper""#, new.hex_digits(Case::Upper)),
        ("drop_underscores = true", new.drop_underscores(true)),
        ("drop_leading_zeros = true", new.drop_leading_zeros(true)),
        (
            r#"suffix_separator = """#,
            new.suffix_separator(Separator::Nothing),
        ),
        (
            r#"suffix_separator = "_""#,
            new.suffix_separator(Separator::Underscore),
        ),
        ("binary_groups = 8", new.digit_groups(groups.binary(8))),
        ("octal_groups = 3", new.digit_groups(groups.octal(3))),
        ("decimal_groups = 3", new.digit_groups(groups.decimal(3))),
        (
            "hexadecimal_groups = 4, min_digits = 5",
            new.digit_groups(groups.hexadecimal(4).min_digits(5)),
        ),
        ("float_zero = true", new.float_zero(true)),
        (
            r#"exponent_letter = "upper""#,
            new.exponent_letter(Case::Upper),
        ),
        ("drop_exponent_plus = true", new.drop_exponent_plus(true)),
        (r#"escape_digits = "lower""#, new.escape_digits(Case::Lower)),
        (
            "fewest_escape_digits = true",
            new.fewest_escape_digits(true),
        ),
        ("drop_ascii_escapes = true", new.drop_ascii_escapes(true)),
        ("named_escapes = true", new.named_escapes(true)),
        ("drop_quote_escapes = true", new.drop_quote_escapes(true)),
        ("fewest_hashes = true", new.fewest_hashes(true)),
        ("drop_raw = true", new.drop_raw(true)),
        ("escape_invisible = true", new.escape_invisible(true)),
        ("", new),
        ("drop_raw = false, float_zero = false", new),
        (
            r#"drop_raw = true, hex_digits = "\x6cower""#,
            new.drop_raw(true).hex_digits(Case::Lower),
        ),
    ];
    for (text, expected) in rows {
        assert_eq!(style(text), Ok(expected), "{text}");
    }
}

#[test]
fn a_configuration_says_a_style() {
    let read = Settings::read_config("// digits\ndecimal_groups = 3\ndrop_raw = true\n").unwrap();
    let expected = Style::new()
        .digit_groups(DigitGroups::new().decimal(3))
        .drop_raw(true);
    assert_eq!(Style::from_settings(&read), Ok(expected));
}

#[test]
fn what_says_no_style_is_an_error_at_its_place() {
    for (text, range, message) in [
        (
            "drop_row = true",
            0..8,
            "unknown name `drop_row` at byte 0: did you mean `drop_raw`?",
        ),
        (
            r#"hex_digits = "Lower""#,
            13..20,
            r#"hex_digits: expected "lower" or "upper" at byte 13"#,
        ),
        (
            "hex_digits = true",
            13..17,
            r#"hex_digits: expected "lower" or "upper" at byte 13"#,
        ),
        (
            r#"suffix_separator = "__""#,
            19..23,
            r#"suffix_separator: expected "" or "_" at byte 19"#,
        ),
        (
            "drop_raw = 1",
            11..12,
            "drop_raw: expected true or false at byte 11",
        ),
        (
            "octal_groups = \"3\"",
            15..18,
            "octal_groups: expected how many digits at byte 15",
        ),
    ] {
        let error = style(text).unwrap_err();
        assert_eq!(error.range(), range, "{text}");
        assert_eq!(error.to_string(), message);
    }
    let error = style(r#"hex_digits = "lower"x"#).unwrap_err();
    assert!(matches!(error.kind(), SettingErrorKind::Suffix(_)));
    let error = style("decimal_groups = -1").unwrap_err();
    assert!(matches!(error.kind(), SettingErrorKind::Value(..)));
}
