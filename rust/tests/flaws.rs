//! Tests of the errors of texts that aren't literals. For each kind of flaw, the rows have the range of the first character that
//! can't continue a literal, and the byte offset at which the spoiled piece begins.

use navyspindle::{
    parse_list, source, FlawKind, Kind, Lit, LitFloat, LitInt, ParseError, ParseErrorKind,
};
use std::collections::HashSet;

/// The least integer above 128 bits.
const PAST: &str = "340282366920938463463374607431768211456";

/// A text, the kind of its flaw, the byte offset at which the spoiled piece begins, and the start and the end of the range of the
/// wrong character.
type Row<'t> = (&'t str, FlawKind, usize, usize, usize);

/// Texts that aren't literals to `syn`, each with another kind of flaw.
const ROWS: &[Row] = &[
    ("", FlawKind::Empty, 0, 0, 0),
    ("truex", FlawKind::NotALiteral, 0, 4, 5),
    ("r#", FlawKind::UnexpectedEnd, 2, 2, 2),
    ("r#x", FlawKind::NoQuote, 2, 2, 3),
    ("--1", FlawKind::NoNumber, 0, 1, 2),
    (r#""a"#, FlawKind::Unclosed, 0, 2, 2),
    (r#""\q""#, FlawKind::UnknownEscape, 1, 2, 3),
    (r#"b"\u{1}""#, FlawKind::NoUnicode, 2, 3, 4),
    (r#""\xg""#, FlawKind::NoHexDigit, 1, 3, 4),
    (r#""\u1""#, FlawKind::NoBrace, 1, 3, 4),
    (r#""\u{}""#, FlawKind::EmptyBraces, 1, 4, 5),
    (r#""\u{0000001}""#, FlawKind::TooManyDigits, 1, 10, 11),
    (r#""\x80""#, FlawKind::HexEscapeOutOfRange, 1, 3, 4),
    (
        r#""\u{110000}""#,
        FlawKind::UnicodeEscapeOutOfRange,
        1,
        9,
        10,
    ),
    (r#""\u{D800}""#, FlawKind::Surrogate, 1, 8, 9),
    (r#"c"\0""#, FlawKind::Nul, 2, 3, 4),
    ("b\"é\"", FlawKind::NotAscii, 2, 2, 4),
    (r#"br"a"é""#, FlawKind::TextAfterQuote, 4, 7, 8),
    ("\"a\rb\"", FlawKind::CarriageReturn, 2, 2, 3),
    ("b'\t'", FlawKind::MustEscape, 2, 2, 3),
    ("''x", FlawKind::NoCharacter, 1, 1, 2),
    ("'ab'", FlawKind::TwoCharacters, 1, 2, 3),
    ("1e+x", FlawKind::NoExponentDigit, 0, 3, 4),
    ("1.5.", FlawKind::BadSuffix, 0, 3, 4),
    (PAST, FlawKind::TooLarge, 0, 39, 39),
];

/// A row for each kind of flaw of a text that isn't a Rust literal.
const OF_RUST: &[Row] = &[
    ("", FlawKind::Empty, 0, 0, 0),
    ("truex", FlawKind::NotALiteral, 0, 4, 5),
    ("r#", FlawKind::UnexpectedEnd, 2, 2, 2),
    ("r#x", FlawKind::NoQuote, 2, 2, 3),
    ("--1", FlawKind::NoNumber, 0, 1, 2),
    (r#""\x4"#, FlawKind::Unclosed, 1, 4, 4),
    (r#""\q""#, FlawKind::UnknownEscape, 1, 2, 3),
    (r#"b"\u{1}""#, FlawKind::NoUnicode, 2, 3, 4),
    (r#""\xg""#, FlawKind::NoHexDigit, 1, 3, 4),
    (r#""\u1""#, FlawKind::NoBrace, 1, 3, 4),
    (r#""\u{}""#, FlawKind::EmptyBraces, 1, 4, 5),
    (r#""\u{0000001}""#, FlawKind::TooManyDigits, 1, 10, 11),
    (r#""\x80""#, FlawKind::HexEscapeOutOfRange, 1, 3, 4),
    (
        r#""\u{110000}""#,
        FlawKind::UnicodeEscapeOutOfRange,
        1,
        9,
        10,
    ),
    (r#""\u{D800}""#, FlawKind::Surrogate, 1, 8, 9),
    (r#"c"\0""#, FlawKind::Nul, 2, 3, 4),
    ("br\"é\"", FlawKind::NotAscii, 3, 3, 5),
    ("'\t'", FlawKind::MustEscape, 1, 1, 2),
    ("'''", FlawKind::NoCharacter, 1, 1, 2),
    ("'ab'", FlawKind::TwoCharacters, 1, 2, 3),
    ("1e", FlawKind::NoExponentDigit, 0, 2, 2),
    ("1.5.0", FlawKind::BadSuffix, 0, 3, 4),
    (PAST, FlawKind::TooLarge, 0, 39, 39),
    ("\"a\rb\"", FlawKind::CarriageReturn, 2, 2, 3),
    (r#"r"a"b""#, FlawKind::TextAfterQuote, 3, 5, 6),
    ("r#\"a\"##", FlawKind::ExtraHash, 4, 6, 7),
    (r#""a"_"#, FlawKind::UnderscoreSuffix, 3, 4, 4),
    ("0xg", FlawKind::NoDigits, 0, 2, 3),
    ("0b102", FlawKind::InvalidDigit, 0, 4, 5),
    ("0x1.5", FlawKind::BasedFloat, 0, 3, 4),
    ("1.foo", FlawKind::NoFractionDigit, 0, 2, 3),
];

/// Checks that each row's text has the flaw that `explain` returns, and returns the kinds of all rows.
fn kinds(rows: &[Row], explain: impl Fn(&str) -> ParseError) -> HashSet<FlawKind> {
    for &(text, kind, from, lo, hi) in rows {
        let error = explain(text);
        assert_eq!(error.kind(), kind, "{text}");
        assert_eq!((error.piece(), error.range()), (from..hi, lo..hi), "{text}");
        assert_eq!(error.to_string(), format!("{kind} at byte {lo}"));
    }
    rows.iter().map(|row| row.1).collect()
}

/// Returns the reason why a text that isn't a literal to `syn` has no value.
fn of_syn(text: &str) -> ParseError {
    let Lit::Verbatim(literal) = Lit::of_text(text) else {
        panic!("{text} reads")
    };
    literal.explain().unwrap()
}

fn of_rust(text: &str) -> ParseError {
    let error = Lit::parse(text).unwrap_err();
    assert_eq!(text.parse::<Lit>().unwrap_err(), error);
    error
}

#[test]
fn each_kind() {
    assert_eq!((kinds(ROWS, of_syn).len(), ROWS.len()), (25, 25));
    assert_eq!((kinds(OF_RUST, of_rust).len(), OF_RUST.len()), (31, 31));
    let hashes = format!("r{}\"\"{0}", "#".repeat(256));
    let row = [(hashes.as_str(), FlawKind::TooManyHashes, 1, 256, 257)];
    assert_eq!(kinds(&row, of_rust).len(), 1);
}

#[test]
fn other_places() {
    let rows: &[Row] = &[
        ("#", FlawKind::NotALiteral, 0, 0, 1),
        ("bx", FlawKind::NotALiteral, 0, 1, 2),
        ("b", FlawKind::UnexpectedEnd, 0, 1, 1),
        ("1e+", FlawKind::NoExponentDigit, 0, 3, 3),
        (r#""a\x4"#, FlawKind::Unclosed, 2, 5, 5),
        (r#"r#"a""#, FlawKind::Unclosed, 0, 5, 5),
        (r#""\u{00D800}""#, FlawKind::Surrogate, 1, 9, 10),
        (r#"c"\x00""#, FlawKind::Nul, 2, 5, 6),
        ("b''", FlawKind::NoCharacter, 2, 2, 3),
        ("é", FlawKind::NotALiteral, 0, 0, 2),
        ("1 ", FlawKind::BadSuffix, 0, 1, 2),
        ("0x1.5", FlawKind::BasedFloat, 0, 3, 4),
        (&format!("{PAST}u8"), FlawKind::TooLarge, 0, 39, 40),
    ];
    kinds(rows, of_syn);
    let rows: &[Row] = &[
        ("-", FlawKind::UnexpectedEnd, 0, 1, 1),
        ("-\"a\"", FlawKind::NoNumber, 0, 1, 2),
        ("-0x", FlawKind::NoDigits, 0, 3, 3),
        ("0b17e", FlawKind::InvalidDigit, 0, 3, 4),
        ("1..2", FlawKind::NoFractionDigit, 0, 2, 3),
        ("1e_+5", FlawKind::NoExponentDigit, 0, 3, 4),
        ("\"a\"\"", FlawKind::TextAfterQuote, 2, 3, 4),
        ("\"a\" ", FlawKind::BadSuffix, 3, 3, 4),
        ("''", FlawKind::NoCharacter, 1, 1, 2),
        (
            "\"\\u{1234567\"",
            FlawKind::UnicodeEscapeOutOfRange,
            1,
            9,
            10,
        ),
    ];
    kinds(rows, of_rust);
}

/// Returns, for each literal without a value, the byte offset of its error in the whole text, and the kind of flaw.
fn flaws<'t>(literals: impl Iterator<Item = (usize, Lit<'t>)>) -> Vec<(usize, FlawKind)> {
    literals
        .filter_map(|(at, literal)| match literal {
            Lit::Verbatim(literal) => {
                let error = literal.explain().unwrap();
                assert!(Lit::parse(literal.text()).is_err());
                let ParseErrorKind::Flaw(kind) = error.kind() else {
                    panic!("{error}")
                };
                Some((at + error.range().start, kind))
            }
            _ => None,
        })
        .collect()
}

#[test]
fn of_lists_and_sources() {
    let text = format!("1 '\\q' \"a\\x4\" /* 'b */ 2 {PAST}u8 b\"é\"");
    let expected = [
        (4, FlawKind::UnknownEscape),
        (12, FlawKind::NoHexDigit),
        (64, FlawKind::TooLarge),
        (69, FlawKind::NotAscii),
    ];
    let in_list = parse_list(&text).map(|item| item.unwrap());
    assert_eq!(
        flaws(in_list.map(|(bytes, it)| (bytes.start, it))),
        expected
    );
    let in_source = source(&text).map(|item| item.unwrap());
    assert_eq!(
        flaws(in_source.map(|(bytes, it)| (bytes.start, it))),
        expected
    );
}

/// Rust treats a decimal integer of any size with the suffix `f32` or `f64` as a float. Above 128 bits the package has no value for
/// it and returns `Verbatim`.
#[test]
fn floats_by_suffix() {
    let taken = ["f64", "f32", "_f32", "__f64", "000_f64"].map(|end| format!("{PAST}{end}"));
    for text in &taken {
        for text in [text.clone(), format!("-{text}")] {
            let literal = Lit::parse(&text).unwrap();
            assert_eq!(literal, Lit::of_text(text.as_str()));
            assert_eq!(
                (literal.kind(), literal.text()),
                (Kind::Verbatim, text.as_str())
            );
            assert_eq!(text.parse::<Lit>().as_ref(), Ok(&literal));
            assert_eq!(Lit::try_from(text.clone()).as_ref(), Ok(&literal));
            assert_eq!(literal.check(), Ok(()));
            let Lit::Verbatim(word) = &literal else {
                panic!("{text}")
            };
            assert_eq!(word.explain(), None, "{text}");
            assert!(word.flaws().next().is_none(), "{text}");
            for (error, expected) in [
                (LitInt::parse(&text).unwrap_err(), Kind::Int),
                (LitFloat::parse(&text).unwrap_err(), Kind::Float),
                (text.parse::<LitFloat>().unwrap_err(), Kind::Float),
                (LitInt::try_from(text.clone()).unwrap_err(), Kind::Int),
            ] {
                let found = Kind::Verbatim;
                let other = ParseErrorKind::Kind { expected, found };
                assert_eq!(error.kind(), other, "{text}");
                assert_eq!(error.range(), 0..text.len(), "{text}");
            }
        }
    }
    for end in ["", "f16", "f128", "f6", "f644", "F64", "u8", "_"] {
        let text = format!("{PAST}{end}");
        let error = Lit::parse(&text).unwrap_err();
        assert_eq!(error.kind(), FlawKind::TooLarge, "{text}");
        assert_eq!(Lit::of_text(text.as_str()).check(), Err(error), "{text}");
    }
    let hexadecimal = format!("0x{PAST}f64");
    let error = Lit::parse(&hexadecimal).unwrap_err();
    assert_eq!(error.kind(), FlawKind::TooLarge);
    assert_eq!(error.range(), 44..44);
    let octal = format!("0o7{}f64", "7".repeat(43));
    assert_eq!(Lit::parse(&octal).unwrap_err().kind(), FlawKind::TooLarge);
}

/// In a file, CR LF counts as LF. `check` returns the next flaw of the text, with byte offsets in the text as it is.
#[test]
fn a_cr_lf_is_no_flaw_of_a_file() {
    const ROWS: &[Row] = &[
        ("\"a\r\n\\q\"", FlawKind::UnknownEscape, 4, 5, 6),
        ("\"\r\n\\x80\"", FlawKind::HexEscapeOutOfRange, 3, 5, 6),
        ("\"\\\r\n\\q\"", FlawKind::UnknownEscape, 4, 5, 6),
        ("\"a\r\n\"_", FlawKind::UnderscoreSuffix, 5, 6, 6),
        ("r\"\r\n\"b\"", FlawKind::TextAfterQuote, 4, 6, 7),
        ("\"\r\n\r\"", FlawKind::CarriageReturn, 3, 3, 4),
        ("r\"\r\n\"\"", FlawKind::TextAfterQuote, 4, 5, 6),
        ("'\r\n'", FlawKind::MustEscape, 1, 1, 3),
    ];
    for &(text, kind, from, lo, hi) in ROWS {
        let error = Lit::of_text(text).check().unwrap_err();
        assert_eq!(error.kind(), kind, "{text:?}");
        assert_eq!(
            (error.piece(), error.range()),
            (from..hi, lo..hi),
            "{text:?}"
        );
    }
    assert_eq!(Lit::of_text("\"a\r\nb\\\r\n c\"").check(), Ok(()));
}
