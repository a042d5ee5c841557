//! Tests of `rewrite_source`, which rewrites whole sources in a style.
#![cfg(all(feature = "sources", feature = "style"))]

use navyspindle::{rewrite_source, source, Case, DigitGroups, Edit, Lit, Separator, Style};
use std::borrow::Cow;

const STYLE: Style = Style::new()
    .hex_digits(Case::Lower)
    .exponent_letter(Case::Lower)
    .drop_exponent_plus(true)
    .drop_underscores(true)
    .drop_leading_zeros(true)
    .escape_digits(Case::Upper)
    .drop_quote_escapes(true)
    .fewest_hashes(true);

fn styled(text: &str) -> Cow<'_, str> {
    rewrite_source(text, STYLE).apply().unwrap()
}

#[test]
fn numbers_behind_a_dot_stay() {
    for text in [
        "t.0_1",
        "t. 0_1",
        "t.\n0_1",
        "t./* 1 */0_1",
        "t. // 1\n0_1",
        "t.\u{200e}0_1",
        "(t).0x_F",
        "f(t.1E5)",
    ] {
        assert!(
            matches!(styled(text), Cow::Borrowed(same) if same == text),
            "{text:?}"
        );
    }
}

#[test]
fn other_numbers_do_not() {
    for (text, written) in [
        ("0_1..0_2", "01..02"),
        ("0xF_F..=0_2", "0xff..=02"),
        ("0_1.max(0_2)", "01.max(02)"),
        ("1.5E+3.max(2.)", "1.5e3.max(2.)"),
        ("// t.\n\n0xF", "// t.\n\n0xf"),
        ("\"t.\" 0xF", "\"t.\" 0xf"),
        ("t.0.f(0xF)", "t.0.f(0xf)"),
        ("a. .0_1", "a. .0_1"),
        ("(0_1, .. 0_1)", "(01, .. 01)"),
        ("\".\" 0_1", "\".\" 01"),
        ("t.r\"a\" 0_1", "t.r\"a\" 01"),
        ("[1, // t.\n 0xF]", "[1, // t.\n 0xf]"),
        ("[1, 2,\n 0xF]", "[1, 2,\n 0xf]"),
        ("\r 0xF \r\r\n\r", "\r 0xf \r\r\n\r"),
        ("09", "9"),
        ("1_", "1"),
    ] {
        assert_eq!(styled(text), written, "{text:?}");
    }
}

// Of these numbers clippy's `mistyped_literal_suffixes` warns, except of `300_8` and `0x_32`.
#[test]
fn numbers_with_mistyped_suffixes_stay() {
    let grouped = STYLE.digit_groups(DigitGroups::new().decimal(3).hexadecimal(4));
    for text in [
        "2_32",
        "250_8",
        "300_8",
        "40000_16",
        "5_64",
        "1_000_32",
        "2__32",
        "0_8",
        "00_8",
        "0_32",
        "09_32",
        "0xAB_32",
        "0x_32",
        "0o7_16",
        "1e5_32",
        "1E5_64",
        "1.0e+1_32",
        "1e_32",
        "1E-_32",
    ] {
        for style in [STYLE, grouped, grouped.suffix_separator(Separator::Nothing)] {
            assert_eq!(rewrite_source(text, style).apply().unwrap(), text);
        }
    }
}

// Of these numbers clippy doesn't warn so.
#[test]
fn numbers_that_end_otherwise_do_not() {
    for (text, written) in [
        ("2_32_", "232"),
        ("2_032", "2032"),
        ("2_128", "2128"),
        ("2_3_2", "232"),
        ("2_32i64", "232i64"),
        ("2_32_i64", "232i64"),
        ("1.5_32", "1.532"),
        ("1.123_456_64", "1.12345664"),
        ("1_32.", "132."),
        ("1_32.0", "132.0"),
        ("1_32e1", "132e1"),
        ("1_32f32", "132f32"),
    ] {
        assert_eq!(styled(text), written, "{text:?}");
    }
}

// clippy's `zero_prefixed_literal` suggests an octal number for those that stay, except for `00`.
#[test]
fn leading_zeros_of_octal_digits_stay() {
    let style = Style::new().drop_leading_zeros(true);
    for (text, written) in [
        ("0123", "0123"),
        ("007", "007"),
        ("0_7_u8", "0_7_u8"),
        ("0755i32", "0755i32"),
        ("00", "00"),
        ("0_1_7_", "0_1_7_"),
        ("089", "89"),
        ("09u8", "9u8"),
        ("0_1_8", "0_1_8"),
        ("0_18", "18"),
        ("0_008_1", "8_1"),
        ("07_9u8", "7_9u8"),
    ] {
        assert_eq!(rewrite_source(text, style).apply().unwrap(), written);
    }
}

#[test]
fn numbers_before_one_colon_stay() {
    for text in [
        "S { 0_1: x }",
        "S{0_1:x}",
        "S { a: x, 0_1: x, 0_2: x, ..s }",
        "let S { 0_1: x, .. } = s;",
        "match s { S { 0_1: T { 0_2: x }, .. } => x }",
        "S {\n    // a\n    0_1 /* b */ : x,\n    /* c */ 0_2 // d\n    : x,\n}",
        "S {\u{200e}0_1\u{2028}: x }",
        "S { 0_1: ::a::B }",
        "S { 0_1:/**/:a::B }",
        "S { #[a] 0_1: x, #[b(c = \"[\")] /* d */ 0_2: x }",
        "S { /// a\n 0_1: x, /** b */ 0_2: x }",
        "S { 0x_F: x }",
        "S { a: t.0_1, 0_1: t.0_2 }",
        "m! { 0_1: x }",
        "[a, 0_1: x]",
        "[a] 0_1: x",
    ] {
        assert!(
            matches!(styled(text), Cow::Borrowed(same) if same == text),
            "{text:?}"
        );
    }
}

#[test]
fn other_numbers_beside_braces_and_colons_do_not() {
    for (text, written) in [
        ("S { 0: 0_1, 1: 0xF }", "S { 0: 01, 1: 0xf }"),
        ("S { 0_1: 0_2, 0_3: 0_4 }", "S { 0_1: 02, 0_3: 04 }"),
        ("{ 0_1::a(), 0_2 :: a }", "{ 01::a(), 02 :: a }"),
        ("{ 0_1:::a }", "{ 01:::a }"),
        ("x = 0_1: a", "x = 01: a"),
        (
            "let 0_1: u8 = x else { 0_2 };",
            "let 01: u8 = x else { 02 };",
        ),
        ("(0_1: a) |0_2: a|", "(01: a) |02: a|"),
        ("{ -0_1: a, (0_2): a }", "{ -01: a, (02): a }"),
        ("{ &0_1: a, x 0_2: a }", "{ &01: a, x 02: a }"),
        ("{ 0_1, 0_2; 0_3 }", "{ 01, 02; 03 }"),
        ("{ 0_1 = :, 0_2 /// b\n : a }", "{ 01 = :, 02 /// b\n : a }"),
        ("{ 0_1 } : 0_2", "{ 01 } : 02"),
        ("} 0_1: a", "} 01: a"),
        ("{ 0_1; } /* { */ 0_2: a", "{ 01; } /* { */ 02: a"),
        ("\"{\" 0_1: a // ,\n 0_2: a", "\"{\" 01: a // ,\n 02: a"),
        ("{ ..0_1: a, .. 0_2: a }", "{ ..01: a, .. 02: a }"),
        ("{ r##\"a\"##: a }", "{ r\"a\": a }"),
        ("{ 0_1", "{ 01"),
        ("0_1: a", "01: a"),
    ] {
        assert_eq!(styled(text), written, "{text:?}");
    }
}

#[test]
fn numbers_that_grow_part_no_tokens() {
    let style = Style::new()
        .digit_groups(DigitGroups::new().decimal(3))
        .float_zero(true);
    for (text, written) in [
        ("t.1000000 t.1. t.0.", "t.1000000 t.1. t.0."),
        (
            "S { 1000: 1000, /* a */ 2000\n: x }",
            "S { 1000: 1_000, /* a */ 2000\n: x }",
        ),
        ("1000..2000", "1_000..2_000"),
        ("1000.max(2000)", "1_000.max(2_000)"),
        ("1. .max(2.)", "1.0 .max(2.0)"),
        ("[1.,2.]", "[1.0,2.0]"),
        ("1.-2.==-1.", "1.0-2.0==-1.0"),
        ("m!(1.\"a\" 1.'b' 1.'c)", "m!(1.0\"a\" 1.0'b' 1.0'c)"),
        ("1./**/e5 1.\u{b7}", "1.0/**/e5 1.0\u{b7}"),
        ("1..2 1...2 1..=2", "1..2 1...2 1..=2"),
        ("1.e 1._x", "1.e 1._x"),
    ] {
        assert_eq!(
            rewrite_source(text, style).apply().unwrap(),
            written,
            "{text:?}"
        );
    }
}

#[test]
fn an_interpreters_line_keeps_all() {
    for (text, written) in [
        ("#!/bin/sh\n0xF", "#!/bin/sh\n0xF"),
        ("\u{feff}#! /*\n0xF \"*/\"", "\u{feff}#! /*\n0xF \"*/\""),
        ("#![a(0xF)]\n0xF", "#![a(0xf)]\n0xf"),
        ("\u{feff}#![a]\n0xF", "\u{feff}#![a]\n0xf"),
        ("#[a]\n0xF", "#[a]\n0xf"),
        ("# !0xF", "# !0xf"),
    ] {
        assert_eq!(styled(text), written, "{text:?}");
    }
}

#[test]
fn what_rust_rejects_stays() {
    for text in [
        "0b1_2 '\\q' \"\\u{fF\"",
        "\"\\'\r\n\"",
        "r#\"a\r\n\"#",
        "true",
        "",
        "// 0xF",
        "'aF",
    ] {
        assert!(
            matches!(styled(text), Cow::Borrowed(same) if same == text),
            "{text:?}"
        );
    }
}

#[test]
fn macros_are_skipped() {
    for (text, written) in [
        ("m!(0xA) + 0xB", "m!(0xA) + 0xb"),
        ("m!{0xA} [0xB]", "m!{0xA} [0xb]"),
        (
            "a::m! [0xA, (0xB), {0xC}] (0xD)",
            "a::m! [0xA, (0xB), {0xC}] (0xd)",
        ),
        (
            "m /* ! */ ! // (\n (0xA, [n!(0xB)], 0xC) + 0xD",
            "m /* ! */ ! // (\n (0xA, [n!(0xB)], 0xC) + 0xd",
        ),
        (
            "macro_rules! m { (0xA) => (0xB); } const C: u8 = 0xC;",
            "macro_rules! m { (0xA) => (0xB); } const C: u8 = 0xc;",
        ),
        (
            "macro_rules! if ((0xA) => {0xB}); 0xC",
            "macro_rules! if ((0xA) => {0xB}); 0xc",
        ),
        ("#[a(0xA, [0xB])] 0xC", "#[a(0xA, [0xB])] 0xc"),
        (
            "#![a = \"\\'\"] #! [0xA] 0xB",
            "#![a = \"\\'\"] #! [0xA] 0xb",
        ),
        (
            "r#if!(0xA) union!(0xB) try!(0xC) Return!(0xD)",
            "r#if!(0xA) union!(0xB) try!(0xC) Return!(0xD)",
        ),
        (
            "m!(\")\", ')', /* ) */ 0xA) 0xB",
            "m!(\")\", ')', /* ) */ 0xA) 0xb",
        ),
        ("m!(0xA", "m!(0xA"),
    ] {
        assert_eq!(
            rewrite_source(text, STYLE)
                .skip_macros(true)
                .apply()
                .unwrap(),
            written,
            "{text:?}"
        );
    }
}

#[test]
fn macros_are_skipped_where_the_last_word_is_true() {
    let text = "m!(0xA) #[a(0xB)] 0xC";
    let edits = || rewrite_source(text, STYLE);
    let all = "m!(0xa) #[a(0xb)] 0xc";
    assert_eq!(edits().skip_macros(false).apply().unwrap(), all);
    let edits = || edits().skip_macros(true);
    assert_eq!(edits().apply().unwrap(), "m!(0xA) #[a(0xB)] 0xc");
    assert_eq!(edits().skip_macros(false).apply().unwrap(), all);
}

#[test]
fn what_looks_like_a_macro_is_not_skipped() {
    for (text, written) in [
        ("a != (0xA)", "a != (0xa)"),
        ("return !(0xA)", "return !(0xa)"),
        (
            "if !{0xA} {} while ![0xB][0] {}",
            "if !{0xa} {} while ![0xb][0] {}",
        ),
        (
            "f(!(0xA), &!(0xB), x = !(0xC))",
            "f(!(0xa), &!(0xb), x = !(0xc))",
        ),
        ("true!(0xA)", "true!(0xa)"),
        ("1!(0xA)", "1!(0xa)"),
        ("'a!(0xA)", "'a!(0xa)"),
        ("m!; (0xA)", "m!; (0xa)"),
        ("m!(0xA)(0xB)", "m!(0xA)(0xb)"),
        ("#(0xA) # a [0xB]", "#(0xa) # a [0xb]"),
        ("m(0xA)![0xB]", "m(0xa)![0xb]"),
        ("m + !(0xA)", "m + !(0xa)"),
    ] {
        assert_eq!(
            rewrite_source(text, STYLE)
                .skip_macros(true)
                .apply()
                .unwrap(),
            written,
            "{text:?}"
        );
        assert_eq!(styled(text), written.replace("0xA", "0xa"), "{text:?}");
    }
}

#[test]
fn an_open_quote_is_an_error() {
    let text = "0xF \"a";
    let error = rewrite_source(text, STYLE).apply().unwrap_err();
    assert_eq!(error.offset(), 4);
    let found: Vec<_> = rewrite_source(text, STYLE).collect();
    assert_eq!(found.len(), 2);
    let edit = found[0].as_ref().unwrap();
    assert_eq!((edit.range(), edit.text()), (0..3, "0xf"));
    assert!(found[1].is_err());
}

#[test]
fn edits_stand_in_order_and_once_is_enough() {
    let text =
        "f(0xFF_u8, r##\"a\"##, \"\\'\\xff\", 1_000, '\\u{aB}', b'\\x0a', 1E+5, r#\"\"\"#, t.0_0);";
    let edits: Vec<Edit> = rewrite_source(text, STYLE)
        .collect::<Result<_, _>>()
        .unwrap();
    assert!(edits
        .windows(2)
        .all(|pair| pair[0].range().end <= pair[1].range().start));
    let written = styled(text);
    assert_eq!(
        written,
        "f(0xffu8, r\"a\", \"\\'\\xff\", 1000, '\\u{AB}', b'\\x0A', 1e5, r#\"\"\"#, t.0_0);"
    );
    assert!(matches!(styled(&written), Cow::Borrowed(_)));
    let (old, new) = (literals(text), literals(&written));
    assert_eq!(old.len(), new.len());
    for (one, other) in old.iter().zip(&new) {
        assert_eq!(one.kind(), other.kind());
        assert_eq!(one.suffix(), other.suffix());
    }
}

fn literals(text: &str) -> Vec<Lit<'_>> {
    source(text).map(|item| item.unwrap().1).collect()
}

#[test]
fn raw_strings_stay_after_hashes_and_dots() {
    let style = Style::new().drop_raw(true).escape_invisible(true);
    let whole = |text| rewrite_source(text, style).apply().unwrap();
    assert_eq!(
        whole("a(r\"b\", br#\"c\"#, cr\"d\\\", r\"\\\u{202e}\")"),
        "a(\"b\", b\"c\", cr\"d\\\", \"\\\\\\u{202e}\")"
    );
    assert_eq!(
        whole("# r\"a\", 1. r\"b\", #br\"c\", x.cr\"d\", r\"e\".r\"f\""),
        "# \"a\", 1. \"b\", #b\"c\", x.c\"d\", \"e\".r\"f\""
    );
    for text in ["1.r\"a\"", "#r\"a\"", "##r#\"a\"#", "x.r\"\u{202e}\""] {
        assert_eq!(whole(text), text);
    }
}

/// Returns, for each literal of a text that the style changes, the names of the rules each of which alone changes it.
fn rules(text: &str, style: Style) -> Vec<Vec<&'static str>> {
    let edits = rewrite_source(text, style).map(|edit| edit.unwrap().rules().to_vec());
    edits.collect()
}

#[test]
fn each_rule_is_named_as_its_setter() {
    let new = Style::new();
    let threes = DigitGroups::new().decimal(3);
    for (name, style, text) in [
        ("hex_digits", new.hex_digits(Case::Lower), "0xA"),
        ("drop_underscores", new.drop_underscores(true), "1_0"),
        ("drop_leading_zeros", new.drop_leading_zeros(true), "09"),
        (
            "suffix_separator",
            new.suffix_separator(Separator::Underscore),
            "1u8",
        ),
        ("digit_groups", new.digit_groups(threes), "1000"),
        ("float_zero", new.float_zero(true), "1."),
        ("exponent_letter", new.exponent_letter(Case::Lower), "1E5"),
        ("drop_exponent_plus", new.drop_exponent_plus(true), "1e+5"),
        ("escape_digits", new.escape_digits(Case::Lower), "b'\\xFF'"),
        (
            "fewest_escape_digits",
            new.fewest_escape_digits(true),
            "'\\u{0e9}'",
        ),
        (
            "drop_ascii_escapes",
            new.drop_ascii_escapes(true),
            "'\\x41'",
        ),
        ("named_escapes", new.named_escapes(true), "'\\x0a'"),
        ("drop_quote_escapes", new.drop_quote_escapes(true), "'\\\"'"),
        ("fewest_hashes", new.fewest_hashes(true), "r#\"\"#"),
        ("drop_raw", new.drop_raw(true), "r\"\""),
        (
            "escape_invisible",
            new.escape_invisible(true),
            "\"\u{202e}\"",
        ),
    ] {
        assert_eq!(rules(text, style), [[name]], "{text}");
    }
}

#[test]
fn rules_are_those_of_the_place() {
    let style = Style::new().fewest_hashes(true).drop_raw(true);
    assert_eq!(rules("r#\"a\"#", style), [["fewest_hashes", "drop_raw"]]);
    assert_eq!(rules("#r#\"a\"#", style), [["fewest_hashes"]]);
    assert!(rules("#r\"a\" 0xF", style).is_empty());
}
