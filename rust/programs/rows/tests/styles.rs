//! Tests the styles that the programs read from configuration files. They are compared with expected styles, and with the styles
//! that the package reads from the same texts.

use navyspindle::rendered::rl_style;
use navyspindle::{Case, DigitGroups, Separator, Settings, Style};
use navyspindle_programs::rl_restyle::{default_style, parse_style, StyleErrorKind};

fn case_of(case: rl_style::Case) -> Case {
    match case {
        rl_style::Case::Lower => Case::Lower,
        rl_style::Case::Upper => Case::Upper,
    }
}

fn groups_of(groups: rl_style::DigitGroups) -> DigitGroups {
    DigitGroups::new()
        .binary(groups.binary)
        .octal(groups.octal)
        .decimal(groups.decimal)
        .hexadecimal(groups.hexadecimal)
        .min_digits(groups.least)
}

/// Converts a style of the translated libraries to a style of the package.
fn shown(style: rl_style::Style) -> Style {
    let mut shown = Style::new()
        .drop_underscores(style.underscores)
        .drop_leading_zeros(style.leading_zeros)
        .float_zero(style.float_zero)
        .drop_exponent_plus(style.exponent_plus)
        .fewest_escape_digits(style.code_digits)
        .drop_ascii_escapes(style.ascii_escapes)
        .named_escapes(style.named_escapes)
        .drop_quote_escapes(style.quote_escapes)
        .fewest_hashes(style.raw_hashes)
        .drop_raw(style.raw)
        .escape_invisible(style.hidden);
    if let Some(case) = style.hex_digits {
        shown = shown.hex_digits(case_of(case));
    }
    if let Some(case) = style.exponent_letter {
        shown = shown.exponent_letter(case_of(case));
    }
    if let Some(case) = style.escape_digits {
        shown = shown.escape_digits(case_of(case));
    }
    if let Some(separator) = style.suffix_separator {
        shown = shown.suffix_separator(match separator {
            rl_style::Separator::Nothing => Separator::Nothing,
            rl_style::Separator::Underscore => Separator::Underscore,
        });
    }
    match style.digit_groups {
        Some(groups) => shown.digit_groups(groups_of(groups)),
        None => shown,
    }
}

/// Returns the style that the text describes, or the range and the kind of its error.
fn told(text: &str) -> Result<Style, String> {
    match parse_style(text) {
        Ok(style) => Ok(shown(style)),
        Err(error) => {
            let kind = match error.kind {
                StyleErrorKind::Syntax(kind) => kind.message().to_string(),
                kind => format!("{kind:?}"),
            };
            Err(format!("{}..{} {kind}", error.lo, error.hi))
        }
    }
}

#[test]
fn styles_that_are_expected() {
    let new = Style::new();
    let groups = DigitGroups::new();
    for (text, expected) in [
        ("", new),
        ("// nothing\n\n", new),
        ("drop_raw = false\nmin_digits = 0", new),
        ("hex_digits = r#\"lower\"#", new.hex_digits(Case::Lower)),
        (
            "/* a */ octal_groups = 0x3, min_digits = 5usize,\nescape_invisible = true",
            new.digit_groups(groups.octal(3).min_digits(5))
                .escape_invisible(true),
        ),
        (
            "suffix_separator = \"\" // none\nexponent_letter = \"upper\"",
            new.suffix_separator(Separator::Nothing)
                .exponent_letter(Case::Upper),
        ),
    ] {
        assert_eq!(told(text), Ok(expected), "{text}");
    }
}

#[test]
fn errors_that_are_expected() {
    for (text, expected) in [
        ("drop_row = true", "0..8 Unknown"),
        ("drop_raw.a = true", "0..10 Unknown"),
        ("drop_raw = true\ndrop_raw = 1", "16..24 Repeated"),
        ("drop_raw = true\ndrop_raw", "16..24 Repeated"),
        ("drop_raw = 1", "11..12 Expected(Truth)"),
        ("octal_groups = -1", "15..17 Expected(Size)"),
        ("octal_groups = - 1", "15..18 Expected(Size)"),
        ("octal_groups = 3u8", "15..18 Expected(Size)"),
        (
            "octal_groups = 18446744073709551616",
            "15..35 Expected(Size)",
        ),
        ("hex_digits = \"Lower\"", "13..20 Expected(Case)"),
        ("hex_digits = \"lower\"x", "13..21 Expected(Case)"),
        ("hex_digits = \"\\x6cower\"", "13..23 Expected(Case)"),
        ("suffix_separator = '_'", "19..22 Expected(Separator)"),
        ("drop_raw true", "9..13 expected `=`"),
        ("drop_raw = true float_zero = true", "16..26 expected `,`"),
        ("drop_raw = \"", "11..11 unclosed quote"),
        (
            "drop_raw =",
            "10..10 unexpected end of input, expected literal",
        ),
        // The error is the first one from the left.
        ("drop_raw = 1\nno = \"", "11..12 Expected(Truth)"),
    ] {
        assert_eq!(told(text), Err(expected.to_string()), "{text}");
    }
}

#[test]
fn names_of_errors() {
    for (text, name) in [
        ("drop_row = true", Some("drop_row")),
        ("drop_raw . a = true", None),
        ("drop_raw.a = true", Some("drop_raw.a")),
        ("drop_raw = true\ndrop_raw = 1", Some("drop_raw")),
        ("hex_digits = /* */ -1", Some("hex_digits")),
        ("drop_raw true", Some("drop_raw")),
        ("drop_raw = true float_zero = true", Some("drop_raw")),
        ("= true", None),
    ] {
        assert_eq!(
            parse_style(text).err().map(|error| error.name),
            Some(name),
            "{text}"
        );
    }
}

#[test]
fn what_is_on_by_default() {
    let expected = Style::new()
        .drop_quote_escapes(true)
        .fewest_hashes(true)
        .exponent_letter(Case::Lower);
    assert_eq!(shown(default_style()), expected);
}

/// The names of all rules, and a name that isn't a rule's.
const NAMES: [&str; 21] = [
    "hex_digits",
    "drop_underscores",
    "drop_leading_zeros",
    "suffix_separator",
    "binary_groups",
    "octal_groups",
    "decimal_groups",
    "hexadecimal_groups",
    "min_digits",
    "float_zero",
    "exponent_letter",
    "drop_exponent_plus",
    "escape_digits",
    "fewest_escape_digits",
    "drop_ascii_escapes",
    "named_escapes",
    "drop_quote_escapes",
    "fewest_hashes",
    "drop_raw",
    "escape_invisible",
    "raw_hashes",
];

const VALUES: [&str; 20] = [
    "true",
    "false",
    "0",
    "3",
    "0x4",
    "1_0",
    "5usize",
    "5u8",
    "-1",
    "1.0",
    "\"lower\"",
    "\"upper\"",
    "r\"upper\"",
    "\"\"",
    "\"_\"",
    "\"__\"",
    "\"Lower\"",
    "\"lower\"x",
    "'_'",
    "18446744073709551616",
];

/// Compares the results for each name with each value, and for pairs of these settings. The two settings of a pair are a prime
/// number of entries apart.
#[test]
fn as_the_package_reads() {
    let entries: Vec<String> = NAMES
        .iter()
        .flat_map(|name| VALUES.iter().map(move |value| format!("{name} = {value}")))
        .collect();
    let mut styles = 0;
    for step in [0, 1, 19, 37, 101, 211] {
        for at in 0..entries.len() {
            let other = &entries[(at + step) % entries.len()];
            let text = format!("{}\n{other}{}", entries[at], [",", ""][at % 2]);
            let text = if step == 0 { entries[at].clone() } else { text };
            let package = Settings::read_config(&text).and_then(|read| Style::from_settings(&read));
            assert_eq!(told(&text).ok(), package.ok(), "{text}");
            styles += usize::from(told(&text).is_ok());
        }
    }
    assert!(styles > 100, "only {styles}");
}
