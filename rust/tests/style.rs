//! Compares rewritten literals with the rows of `style.txt`. `oracle/style_rows.py` creates these rows from a model's results.

mod letters;

use letters::{decoded, style_of};
use navyspindle::{
    is_token, rewrite, rewrite_in_context, write_integer, Base, FlawKind, Lit, Style,
};
use std::borrow::Cow;

const ROWS: &str = include_str!("style.txt");

#[test]
fn the_model_writes_the_same() {
    let mut changed = 0;
    for row in ROWS.lines() {
        let [letters, front, text, written] = row.split(' ').collect::<Vec<_>>()[..] else {
            panic!("{row}")
        };
        let (style, front, text) = (style_of(letters), decoded(front), decoded(text));
        let answer = rewrite_in_context(&front, &text, style);
        if written == "!" {
            assert!(answer.is_err() && !is_token(&text), "{letters} {text}");
            continue;
        }
        let answer = answer.unwrap();
        if written == "=" {
            assert!(
                matches!(answer, Cow::Borrowed(same) if same == text),
                "{letters} {text}"
            );
            continue;
        }
        assert_eq!(answer, decoded(written), "{letters} {text}");
        let again = rewrite_in_context(&front, &answer, style).unwrap();
        assert_eq!(again, answer, "{letters} {text}");
        changed += 1;
    }
    assert!(changed > 350, "{changed}");
}

/// Whether the package's parser returns the same kind, value and suffix for both texts.
fn read_alike(old: &str, new: &str) -> bool {
    let (old, new) = (Lit::of_text(old.to_owned()), Lit::of_text(new.to_owned()));
    let value = |literal: &Lit<'_>| match literal {
        Lit::Str(it) => it.value().as_bytes().to_vec(),
        Lit::ByteStr(it) => it.value().to_vec(),
        Lit::CStr(it) => it.value().to_vec(),
        Lit::Byte(it) => vec![it.value()],
        Lit::Char(it) => it.value().to_string().into_bytes(),
        Lit::Int(it) => it.base10_digits().as_bytes().to_vec(),
        Lit::Float(it) => it.base10_digits().replace('E', "e").into_bytes(),
        _ => literal.text().as_bytes().to_vec(),
    };
    old.kind() == new.kind() && old.suffix() == new.suffix() && value(&old) == value(&new)
}

#[test]
fn what_is_written_reads_alike() {
    for row in ROWS.lines() {
        let text = decoded(row.split(' ').nth(2).unwrap());
        let len = text.len();
        for (letters, most) in [
            ("xuzsepdcanqhr", len),
            ("zSepdcanqh", len + 1),
            ("zSGepdcanqh", 2 * len + 1),
            ("Sri", 4 * len + 1),
        ] {
            if let Ok(written) = rewrite(&text, style_of(letters)) {
                assert!(read_alike(&text, &written), "{text} {written}");
                assert!(written.len() <= most, "{text} {written}");
            }
        }
    }
}

#[test]
fn groups_are_those_of_the_writer() {
    for base in [Base::Binary, Base::Octal, Base::Decimal, Base::Hexadecimal] {
        for value in (0..2_000_u128).chain([u128::MAX, u128::MAX / 7, 1 << 64]) {
            for style in [style_of("G"), style_of("g")] {
                let text = write_integer(value, base, Style::new());
                let written = rewrite(&text, style).unwrap();
                // In octal numbers `g` has no groups, and changes nothing.
                assert_eq!(written, write_integer(value, base, style), "{text}");
            }
        }
    }
    for value in [0_u64, 1_000, 9_999, 10_000, 123_456_789] {
        let text = write_integer(value, Base::Decimal, style_of("G"));
        let written = rewrite(&text, style_of("g")).unwrap();
        assert_eq!(written, write_integer(value, Base::Decimal, style_of("g")));
    }
}

#[test]
fn a_zero_closes_a_float_alone() {
    let style = style_of("fSuxg");
    for (text, written) in [
        ("1.", "1.0"),
        ("1_000000.", "1_000_000.0"),
        ("1.0", "1.0"),
        ("1f32", "1_f32"),
        ("1.f32", "!"),
        ("1.5f32", "1.5_f32"),
        ("1.e5", "!"),
        ("1e5", "1e5"),
    ] {
        let answer = rewrite(text, style);
        assert_eq!(answer.as_deref().unwrap_or("!"), written, "{text}");
    }
    // The number stays the same.
    let closed = rewrite("1234567.", style).unwrap();
    assert_eq!(closed.replace('_', "").parse(), "1234567.".parse::<f64>());
}

#[test]
fn errors_are_those_of_the_reader() {
    for text in ["", "0b102", "\"a\\q\"", "r\"a\"b\"", "'ab'", "1e", "x"] {
        let error = rewrite(text, style_of("xuzSepdcanqh")).unwrap_err();
        assert_eq!(error, Lit::parse(text).unwrap_err(), "{text}");
    }
    // A minus is a separate token, so it isn't part of a literal token.
    let error = rewrite("-1", Style::new()).unwrap_err();
    assert_eq!(error.kind(), FlawKind::Minus);
    assert_eq!(error.offset(), 0);
}

#[test]
fn long_texts_are_written_whole() {
    let inside = "\\'\u{20ac}\\x4A".repeat(20_000);
    let written = rewrite(&format!("\"{inside}\""), style_of("qd"))
        .unwrap()
        .into_owned();
    assert_eq!(written, format!("\"{}\"", "'\u{20ac}\\x4a".repeat(20_000)));
    let hashes = "#".repeat(255);
    let raw = format!("br{hashes}\"a\"{hashes}u8");
    assert_eq!(rewrite(&raw, style_of("h")).unwrap(), "br\"a\"u8");
    // The raw string already has the largest number of hashes that is allowed, and needs all of them.
    let full = format!("r{hashes}\"\"{}\"{hashes}", "#".repeat(254));
    assert_eq!(rewrite(&full, style_of("h")).unwrap(), full);
}
