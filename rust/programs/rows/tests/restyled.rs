//! Tests the library by which the programs rewrite whole sources. The expected texts are written by hand. Sources of this
//! repository are rewritten by the package too, and the results are compared.

use navyspindle::rendered::rl_style::{Case, Style as Rules};
use navyspindle::rendered::rl_syntax::Kind;
use navyspindle::{rewrite_source as package_restyle, Style};
use navyspindle_programs::rattle_std::alloc::Global;
use navyspindle_programs::rl_restyle::{rewrite_source, Choice, Macros, RestyleError};
use std::fs;
use std::path::Path;

/// The style: hexadecimal digits in lower case, no underscores, no leading zeros, and no backslash before a quote that doesn't need
/// one.
const RULES: Rules = Rules {
    hex_digits: Some(Case::Lower),
    underscores: true,
    leading_zeros: true,
    quote_escapes: true,
    raw_hashes: true,
    ..Rules::KEEP
};

/// Returns the rewritten text.
fn made(macros: Macros, text: &str) -> Result<String, RestyleError> {
    chosen(
        Choice {
            macros,
            kinds: None,
        },
        text,
    )
}

/// Returns the text with the chosen literals rewritten.
fn chosen(choice: Choice<'_>, text: &str) -> Result<String, RestyleError> {
    let made = rewrite_source(Global, RULES, choice, text)?;
    Ok(made.text.as_str().to_owned())
}

fn styled(macros: Macros, text: &str) -> String {
    made(macros, text).unwrap_or_else(|_| panic!("{text:?}"))
}

#[test]
fn texts_are_written_anew() {
    for (text, written) in [
        ("", ""),
        ("// 0xA", "// 0xA"),
        ("0xAu8 + 0xb\n", "0xau8 + 0xb\n"),
        (
            " f(0xA, \"\\'\", r##\"a\"##, t.0xB)",
            " f(0xa, \"'\", r\"a\", t.0xB)",
        ),
        ("S { 0xA: 0xB, 1_0: 1_1 }", "S { 0xA: 0xb, 1_0: 11 }"),
        ("offset_of(S, 1_0.0xA); 0xA", "offset_of(S, 1_0.0xA); 0xa"),
        (
            "{ offset_of(1_0) } offset_of { 1_1 }",
            "{ offset_of(1_0) } offset_of { 11 }",
        ),
        (
            "let S { 1_0 // a\n : b, /** c */ 1_1:/**/:d, .. }",
            "let S { 1_0 // a\n : b, /** c */ 1_1:/**/:d, .. }",
        ),
        (
            "S { #[a] 1_0: b, \"\\'\": c }",
            "S { #[a] 1_0: b, \"'\": c }",
        ),
        (
            "{ 1_0::a, 1_1; } 1_2: a, 1_3 /// b\n : c",
            "{ 10::a, 11; } 12: a, 13 /// b\n : c",
        ),
        ("let 1_0: a = (1_1: b)", "let 10: a = (11: b)"),
        ("é 0xA é 1_0é 'é'", "é 0xa é 10é 'é'"),
        ("\u{feff}0xA", "\u{feff}0xa"),
        ("0b12 '\\q' 0xA", "0b12 '\\q' 0xa"),
        // clippy's `mistyped_literal_suffixes` warns of `2_32`, `0_8`, `0xAB_16` and `1E5_64`, and not of the others.
        (
            "2_32 2_032 2_32_ 2_32u8 0_8 0xAB_16 1E5_64 1.5_64 1_8.",
            "2_32 2032 232 232u8 0_8 0xAB_16 1E5_64 1.564 18.",
        ),
        // clippy's `zero_prefixed_literal` suggests an octal number for `0123` and `0_7u8`.
        ("0123 089 0_7u8 0_9u8", "0123 89 07u8 9u8"),
        ("m!(0xA) + 0xB", "m!(0xA) + 0xb"),
        ("#![a(0xA)] return !(0xB)", "#![a(0xA)] return !(0xb)"),
    ] {
        assert_eq!(styled(Macros::Skip, text), written, "{text:?}");
    }
    assert_eq!(styled(Macros::All, "m!(0xA) + 0xB"), "m!(0xa) + 0xb");
    // The new text of a literal of 64 bytes or more is written into memory that is allocated for it.
    for n in [62, 63, 64, 65, 300] {
        let text = format!("(r##\"{0}\"##, 0x{0}, \"\\'{0}\")", "A".repeat(n));
        let new = format!("(r\"{0}\", 0x{1}, \"'{0}\")", "A".repeat(n), "a".repeat(n));
        assert_eq!(styled(Macros::Skip, &text), new);
    }
    let fields = styled(Macros::All, "m!(offset_of!(S, 1_0), 0xA); m!(0xA)");
    assert_eq!(fields, "m!(offset_of!(S, 1_0), 0xA); m!(0xa)");
}

#[test]
fn only_literals_of_the_kinds_are_rewritten() {
    let text = "f(0xA, 1_0.0, \"\\'\", t.0xB, m!(0xC))";
    let skipped = "f(0xa, 1_0.0, \"\\'\", t.0xB, m!(0xC))";
    let integers = "f(0xa, 1_0.0, \"\\'\", t.0xB, m!(0xc))";
    let others = "f(0xA, 10.0, \"'\", t.0xB, m!(0xC))";
    let cases: [(Macros, &[Option<Kind>], &str); 5] = [
        (Macros::Skip, &[Some(Kind::Int)], skipped),
        (Macros::All, &[Some(Kind::Int)], integers),
        (Macros::Skip, &[Some(Kind::Str), Some(Kind::Float)], others),
        (Macros::All, &[Some(Kind::ByteStr), None], text),
        (Macros::All, &[], text),
    ];
    for (macros, kinds, written) in cases {
        let choice = Choice {
            macros,
            kinds: Some(kinds),
        };
        let new = chosen(choice, text).ok();
        assert_eq!(new.as_deref(), Some(written), "{kinds:?}");
    }
    // `syn` accepts no integer above 128 bits.
    let large = format!("(0xA, 0x1{})", "_0".repeat(32));
    let choice = Choice {
        macros: Macros::Skip,
        kinds: Some(&[None]),
    };
    let new = chosen(choice, &large).ok();
    assert_eq!(new, Some(format!("(0xA, 0x1{})", "0".repeat(32))));
}

#[test]
fn nothing_is_made_of_other_texts() {
    for text in ["#!/bin/sh\n0xA", "\u{feff}#! [a] 0xA", "#!"] {
        assert!(
            matches!(made(Macros::All, text), Err(RestyleError::Script)),
            "{text:?}"
        );
    }
    for (text, at) in [("0xA \"b", 4), ("0xA /* b", 4), ("é 'ab\n 0xA r#\"b\"", 12)] {
        match made(Macros::All, text) {
            Err(RestyleError::Source(error)) => assert_eq!(error.at, at, "{text:?}"),
            _ => panic!("{text:?}"),
        }
    }
}

/// Adds the texts of the Rust sources below a folder to `found`.
fn sources(folder: &Path, found: &mut Vec<String>) {
    for entry in fs::read_dir(folder).expect("it is a folder").flatten() {
        let path = entry.path();
        if path.is_dir() {
            sources(&path, found);
        } else if path.extension().is_some_and(|it| it == "rs") {
            found.push(fs::read_to_string(&path).expect("it is a text"));
        }
    }
}

#[test]
fn sources_are_written_as_the_package_does() {
    let style = Style::new()
        .hex_digits(navyspindle::Case::Lower)
        .drop_underscores(true)
        .drop_leading_zeros(true)
        .drop_quote_escapes(true)
        .fewest_hashes(true);
    let mut texts = Vec::new();
    sources(
        &Path::new(env!("CARGO_MANIFEST_DIR")).join("../../src"),
        &mut texts,
    );
    sources(
        &Path::new(env!("CARGO_MANIFEST_DIR")).join("../../tests"),
        &mut texts,
    );
    let mut count = 0;
    for text in texts {
        for (macros, skips) in [(Macros::Skip, true), (Macros::All, false)] {
            let asked = package_restyle(&text, style).skip_macros(skips);
            count += asked.clone().count();
            let expected = asked.apply().expect("rustc takes it");
            assert_eq!(styled(macros, &text), expected);
        }
    }
    assert!(count > 100, "{count}");
}
