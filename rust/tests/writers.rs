//! Compares written literals with std's formatting and with rustc's own tokens.

use navyspindle::{
    is_token, write_char, write_char_ascii, write_integer, write_raw_byte_str, write_raw_c_str,
    write_raw_str, write_str, write_str_ascii, Base, Case, DigitGroups, Integer, LitBool, LitByte,
    LitByteStr, LitCStr, LitChar, LitFloat, LitInt, LitStr, Style,
};
use std::ffi::CString;
use std::fmt;

/// Returns the style with groups of `size` digits in each base, for numbers with at least `least` digits.
fn groups(size: usize, least: usize) -> Style {
    let groups = DigitGroups::new().binary(size).octal(size).decimal(size);
    Style::new().digit_groups(groups.hexadecimal(size).min_digits(least))
}

/// Divides digits into groups with underscores between them, counted from the last digit.
fn grouped(digits: &str, size: usize) -> String {
    let mut groups: Vec<&str> = Vec::new();
    let mut rest = digits;
    while size > 0 && rest.len() > size {
        let (front, last) = rest.split_at(rest.len() - size);
        groups.insert(0, last);
        rest = front;
    }
    groups.insert(0, rest);
    groups.join("_")
}

/// Checks the literals that are written for a number of this magnitude, in each base and with groups of several sizes. `min_digits`
/// is tested with the number of digits that the number has, and with one more.
fn check_integer<N: Integer + fmt::Display>(value: N, magnitude: u128, name: &str) {
    let sign = if value.to_string().starts_with('-') {
        "-"
    } else {
        ""
    };
    let rows = [
        (Base::Decimal, Case::Lower, format!("{magnitude}")),
        (Base::Binary, Case::Lower, format!("{magnitude:#b}")),
        (Base::Octal, Case::Lower, format!("{magnitude:#o}")),
        (Base::Hexadecimal, Case::Lower, format!("{magnitude:#x}")),
        (Base::Hexadecimal, Case::Upper, format!("{magnitude:#X}")),
    ];
    for (base, case, text) in rows {
        let (prefix, digits) = text.split_at(base.prefix().len());
        for size in [0, 1, 2, 3, 4, 5, 8, 16, 63, 127, 128, usize::MAX] {
            let literal = format!("{prefix}{}", grouped(digits, size));
            assert!(is_token(&literal), "{literal}");
            let read = LitInt::parse(&literal).unwrap();
            assert_eq!((read.magnitude(), read.suffix()), (magnitude, ""));
            for least in [0, digits.len(), digits.len() + 1] {
                let is_grouped = digits.len() >= least;
                let literal = if is_grouped { &literal } else { &text };
                let written = write_integer(value, base, groups(size, least).hex_digits(case));
                assert_eq!(written, format!("{sign}{literal}"));
            }
        }
    }
    let suffixed = LitInt::suffixed(value);
    assert_eq!(suffixed.text(), format!("{value}{name}"));
    assert_eq!(suffixed.base10_digits(), value.to_string());
}

#[test]
fn integers_as_std_formats_them() {
    let mut unsigned: Vec<u128> = (0..300).collect();
    for bit in 0..128 {
        let power = 1_u128 << bit;
        unsigned.extend([power - 1, power, power + 1, power | 0xA5, u128::MAX >> bit]);
    }
    unsigned.extend((0..39).map(|power| 10_u128.pow(power)));
    for value in unsigned {
        check_integer(value, value, "u128");
        if let Ok(value) = u64::try_from(value) {
            check_integer(value, u128::from(value), "u64");
        }
        let negative = 0_i128.wrapping_sub_unsigned(value);
        check_integer(negative, negative.unsigned_abs(), "i128");
    }
    check_integer(u8::MAX, 255, "u8");
    check_integer(i8::MIN, 128, "i8");
    check_integer(u16::MAX, 65_535, "u16");
    check_integer(i16::MIN, 32_768, "i16");
    check_integer(u32::MAX, 4_294_967_295, "u32");
    check_integer(i32::MIN, 2_147_483_648, "i32");
    check_integer(i64::MIN, 9_223_372_036_854_775_808, "i64");
    check_integer(7_usize, 7, "usize");
    check_integer(-7_isize, 7, "isize");
}

/// Checks that the value that rustc reads from a literal is written as the same literal.
macro_rules! written_back {
    ($($written:expr => $($literal:literal)*;)*) => {$($(
        let write = $written;
        assert_eq!(write($literal), stringify!($literal));
    )*)*};
}

#[test]
fn as_rustc_has_them() {
    let upper = groups(4, 0).hex_digits(Case::Upper);
    written_back! {
        |value: u32| write_integer(value, Base::Decimal, groups(3, 0)) => 0 999 1_000 4_294_967_295;
        |value: u32| write_integer(value, Base::Decimal, groups(3, 5)) => 0 1000 9999 10_000 1_000_000;
        |value: u8| LitInt::suffixed(value).to_string() => 0u8 255u8;
        |value: u64| write_integer(value, Base::Hexadecimal, upper) => 0x0 0xFFFF 0x1_0000 0xFFFF_FFFF_FFFF_FFFF;
        |value: i16| write_integer(value, Base::Binary, groups(4, 0)) => 0b0 0b1010_0101;
        |value: i32| write_integer(value, Base::Octal, Style::new()) => 0o0 0o777;
        |value: &str| write_raw_str(value).unwrap() => r"" r"a\b" r#"""# r#"a"b"# r##""#"## r##"a"#b"## r###""##"###;
        |value: &[u8]| write_raw_byte_str(value).unwrap() => br"" br"\" br#"a"b"# br##""#"##;
        |value: &std::ffi::CStr| write_raw_c_str(value).unwrap() => cr"" cr"é\" cr#"a"b"#;
        |value: &str| write_str_ascii(value) => "" "a'\"\\" "\u{e9}\u{1f600}" "\0\t\n\r\x7F" "\u{80}\u{10ffff}";
        |value: char| write_char_ascii(value) => 'a' '"' '\'' '\u{e9}' '\u{10ffff}' '\x1F' '\n';
    }
}

#[test]
fn in_ascii_as_std_escapes() {
    let inside = |literal: &str| literal[1..literal.len() - 1].to_owned();
    let mut all = String::new();
    let mut expected = String::new();
    for c in '\0'..=char::MAX {
        let text = c.to_string();
        let (in_string, in_char) = if c.is_ascii() {
            (inside(&write_str(&text)), inside(&write_char(c)))
        } else {
            let escape = c.escape_unicode().to_string();
            (escape.clone(), escape)
        };
        assert_eq!(write_char_ascii(c), format!("'{in_char}'"));
        all.push(c);
        expected.push_str(&in_string);
    }
    assert_eq!(write_str_ascii(&all), format!("\"{expected}\""));
    assert_eq!(
        LitStr::parse(&format!("\"{expected}\"")).unwrap().value(),
        all
    );
}

/// Returns all texts of up to `most` of these characters.
fn texts(characters: &str, most: usize) -> Vec<String> {
    let mut texts = vec![String::new()];
    let mut last = texts.clone();
    for _ in 0..most {
        let more = last
            .iter()
            .flat_map(|text| characters.chars().map(move |c| format!("{text}{c}")));
        last = more.collect();
        texts.extend_from_slice(&last);
    }
    texts
}

/// Returns the first raw literal for which `reads` returns `true`. The literals have zero, one, two hashes and so on.
fn first_raw(opener: &str, text: &str, reads: impl Fn(&str) -> bool) -> Option<String> {
    let literal = |count: usize| {
        let hashes = "#".repeat(count);
        format!("{opener}{hashes}\"{text}\"{hashes}")
    };
    // A literal needs at most one hash more than its text has bytes.
    (0..=text.len() + 1)
        .map(literal)
        .find(|literal| reads(literal))
}

#[test]
fn raw_with_the_fewest_hashes() {
    let mut all = texts("\"#a\r\né\0", 5);
    for count in [253, 254, 255, 256] {
        let hashes = "#".repeat(count);
        all.extend([
            format!("\"{hashes}"),
            format!("{hashes}\""),
            format!("a{hashes}"),
        ]);
    }
    let mut held = [0; 3];
    for text in &all {
        let expected = first_raw("r", text, |it| {
            LitStr::parse(it).is_ok_and(|it| it.value() == *text)
        });
        assert_eq!(write_raw_str(text), expected, "{text:?}");
        held[0] += usize::from(expected.is_some());
        let bytes = text.as_bytes();
        let expected = first_raw("br", text, |it| {
            LitByteStr::parse(it).is_ok_and(|it| *it.value() == *bytes)
        });
        assert_eq!(write_raw_byte_str(bytes), expected, "{text:?}");
        held[1] += usize::from(expected.is_some());
        if let Ok(value) = CString::new(bytes) {
            let expected = first_raw("cr", text, |it| {
                LitCStr::parse(it).is_ok_and(|it| it.c_string() == value)
            });
            assert_eq!(write_raw_c_str(&value), expected, "{text:?}");
            held[2] += usize::from(expected.is_some());
        }
    }
    assert!(held.iter().all(|count| *count > 1_000), "{held:?}");
    for byte in 128..=255 {
        assert_eq!(write_raw_byte_str(&[byte]), None);
        assert_eq!(write_raw_c_str(&CString::new([b'a', byte]).unwrap()), None);
    }
}

#[test]
fn made_of_values() {
    let strings = ["", "a\"b", "\u{e9}\n"];
    assert!(strings
        .iter()
        .all(|text| LitStr::new(text).value() == *text));
    assert_eq!(*LitByteStr::new(b"\xff\"\\").value(), *b"\xff\"\\");
    assert_eq!(LitCStr::new(c"\xff\"").c_string().as_c_str(), c"\xff\"");
    assert!((0..=255).all(|byte| LitByte::new(byte).value() == byte));
    assert!("a'\\\u{10ffff}"
        .chars()
        .all(|c| LitChar::new(c).value() == c));
    assert!([false, true]
        .iter()
        .all(|truth| LitBool::new(*truth).value() == *truth));
    assert_eq!(LitInt::suffixed(i128::MIN).value::<i128>(), Ok(i128::MIN));
    assert_eq!(LitInt::unsuffixed(u128::MAX).value::<u128>(), Ok(u128::MAX));
    assert_eq!(LitInt::unsuffixed(-1).base10_digits(), "-1");
    assert_eq!(LitFloat::suffixed(-0.0_f64).unwrap().text(), "-0.0f64");
    for value in [1.5, f64::MAX, f64::MIN_POSITIVE, 5e-324, 1e16, 0.1] {
        let (with, without) = (LitFloat::suffixed(value), LitFloat::unsuffixed(value));
        assert_eq!(with.unwrap().value::<f64>(), Ok(value));
        assert_eq!(without.unwrap().text(), format!("{value:?}"));
    }
    for value in [f32::INFINITY, f32::NEG_INFINITY, f32::NAN] {
        assert!(LitFloat::suffixed(value).is_none());
        assert!(LitFloat::unsuffixed(value).is_none());
    }
}
