//! Tests of the parts of numbers. The expected parts come from a simple model, which splits a text after its first bytes, at its
//! first dot and at its first `e`.

use navyspindle::{
    parse_list, Base, FlawKind, Kind, Lit, LitFloat, LitInt, LitStr, ParseErrorKind,
};
use std::ops::Range;

/// Returns the text before the suffix, without a minus.
fn unsigned(text: &str, suffix: Range<usize>) -> &str {
    let numeral = &text[..suffix.start];
    numeral.strip_prefix('-').unwrap_or(numeral)
}

fn check_integer(integer: &LitInt) {
    let (text, unsigned) = (
        integer.text(),
        unsigned(integer.text(), integer.suffix_range()),
    );
    let (base, digits) = match unsigned.get(..2) {
        Some("0b") => (Base::Binary, &unsigned[2..]),
        Some("0o") => (Base::Octal, &unsigned[2..]),
        Some("0x") => (Base::Hexadecimal, &unsigned[2..]),
        _ => (Base::Decimal, unsigned),
    };
    assert_eq!((integer.base(), integer.digits()), (base, digits), "{text}");
    assert_eq!(&text[integer.digits_range()], digits, "{text}");
}

fn check_float(float: &LitFloat) {
    let (text, unsigned) = (float.text(), unsigned(float.text(), float.suffix_range()));
    let (front, exponent) = match unsigned.find(['e', 'E']) {
        Some(at) => (&unsigned[..at], Some(&unsigned[at + 1..])),
        None => (unsigned, None),
    };
    let (whole, fraction) = match front.split_once('.') {
        Some((whole, fraction)) => (whole, Some(fraction)),
        None => (front, None),
    };
    assert_eq!(float.number_part(), &text[..float.suffix_range().start]);
    assert_eq!(float.integer_part(), whole, "{text}");
    assert_eq!(float.fractional_part(), fraction, "{text}");
    assert_eq!(float.exponent_part(), exponent, "{text}");
}

/// The number of integers and the number of floats that were checked.
#[derive(Default)]
struct Tally {
    integers: usize,
    floats: usize,
}

impl Tally {
    fn check(&mut self, literal: &Lit) {
        match literal {
            Lit::Int(integer) => {
                check_integer(integer);
                self.integers += 1;
            }
            Lit::Float(float) => {
                check_float(float);
                self.floats += 1;
            }
            _ => {}
        }
    }

    /// Checks each text of `front` and up to `most` further characters: alone, as an owned text, and after a minus with white space
    /// after it.
    fn check_each(&mut self, front: &str, most: usize) {
        self.check(&Lit::of_text(front));
        self.check(&Lit::of_text(front.to_owned()));
        let list = format!("- {front}");
        let items = parse_list(&list).map_while(Result::ok);
        items.for_each(|(_, literal)| self.check(&literal));
        if most > 0 {
            for c in "0179_.eEf+-xbo".chars() {
                self.check_each(&format!("{front}{c}"), most - 1);
            }
        }
    }
}

#[test]
fn parts_as_in_a_plain_model() {
    let mut tally = Tally::default();
    tally.check_each("", 4);
    for front in [
        "1.5",
        "-1.5e",
        "1e5",
        "12_.3_E-",
        "-0x",
        "0xF",
        "0b1",
        "-0o7",
        "1_",
        "1.5_f32",
        "340282366920938463463374607431768211455",
    ] {
        tally.check_each(front, 3);
    }
    assert!(tally.integers > 20_000, "{}", tally.integers);
    assert!(tally.floats > 20_000, "{}", tally.floats);
}

/// `LitInt::of_text` and `LitFloat::of_text` parse like `syn`. The rows come from the tests of `syn` 3 and from its grammar.
#[test]
fn a_text_is_made_an_integer_or_a_float() {
    for (text, digits, suffix) in [
        ("5", "5", ""),
        ("5u32", "5", "u32"),
        ("0E", "0", "E"),
        ("0ECMA", "0", "ECMA"),
        ("0x7f", "127", ""),
        ("0b1001", "9", ""),
        ("0o73", "59", ""),
        ("5_0", "50", ""),
        ("0x_7F_", "127", ""),
        ("0b10_01", "9", ""),
        ("-10i8", "-10", "i8"),
        ("1f64", "1", "f64"),
        ("0x1F", "31", ""),
        ("1e", "1", "e"),
    ] {
        let literal = LitInt::of_text(text).expect(text);
        assert_eq!(
            (&*literal.base10_digits(), literal.suffix()),
            (digits, suffix),
            "{text}"
        );
        assert_eq!(Lit::from(literal), Lit::of_text(text), "{text}");
    }
    for (text, digits, suffix) in [
        ("5.5", "5.5", ""),
        ("5.5E12", "5.5e12", ""),
        ("5.5e12", "5.5e12", ""),
        ("1.0__3e-12", "1.03e-12", ""),
        ("1.03e+12", "1.03e12", ""),
        ("9e99e99", "9e99", "e99"),
        ("1e_0", "1e0", ""),
        ("0.0ECMA", "0.0", "ECMA"),
        ("1f64", "1", "f64"),
        ("10", "10", ""),
        ("0x1F", "0", "x1F"),
        ("0x", "0", "x"),
        (
            "340282366920938463463374607431768211456f64",
            "340282366920938463463374607431768211456",
            "f64",
        ),
    ] {
        let literal = LitFloat::of_text(text).expect(text);
        assert_eq!(
            (&*literal.base10_digits(), literal.suffix()),
            (digits, suffix),
            "{text}"
        );
    }
    let past = "340282366920938463463374607431768211456";
    let large = LitFloat::of_text(format!("{past}f64")).expect("a float");
    assert_eq!(
        large.value::<f64>(),
        Ok(340_282_366_920_938_463_463_374_607_431_768_211_456_f64)
    );
}

#[test]
fn a_text_that_is_no_number_has_its_reason() {
    let mismatch = |expected, found| ParseErrorKind::Kind { expected, found };
    let int = |text| {
        LitInt::of_text(text)
            .map_err(|error| (error.kind(), error.range()))
            .unwrap_err()
    };
    let float = |text| {
        LitFloat::of_text(text)
            .map_err(|error| (error.kind(), error.range()))
            .unwrap_err()
    };
    assert_eq!(int("1.0"), (mismatch(Kind::Int, Kind::Float), 0..3));
    assert_eq!(int("'a'"), (mismatch(Kind::Int, Kind::Char), 0..3));
    assert_eq!(int(""), (ParseErrorKind::Flaw(FlawKind::Empty), 0..0));
    assert_eq!(float("abc"), (mismatch(Kind::Float, Kind::Verbatim), 0..1));
    let message = |text| LitStr::parse(text).unwrap_err().to_string();
    assert_eq!(message("x"), "expected string literal at byte 0");
    assert_eq!(
        message("1"),
        "expected string literal, found integer literal at byte 0"
    );
    assert_eq!(float("true"), (mismatch(Kind::Float, Kind::Bool), 0..4));
    // White space is no part of a number, and `syn` rejects it too.
    for text in [" 1.5", "1.5 ", "1.5\n", "1f32 ", "1.5 f32", "1.5_\u{a0}"] {
        assert!(LitFloat::of_text(text).is_err(), "{text:?}");
    }
    let past = "340282366920938463463374607431768211456";
    for suffix in ["", "u8", "f64"] {
        let text = format!("{past}{suffix}");
        let error = LitInt::of_text(&*text).unwrap_err();
        assert_eq!(error.kind(), FlawKind::TooLarge, "{text}");
        assert_eq!(
            (error.offset(), error.piece().start),
            (past.len(), 0),
            "{text}"
        );
    }
    assert!(LitInt::of_text(format!("0x{}", "F".repeat(32))).is_ok());
    assert!(LitInt::of_text(format!("0x1{}", "0".repeat(32))).is_err());
}
