//! Compares `type_error` with rustc 1.95, which accepts or rejects each literal as an expression. Literals out of their type's
//! range are set to be errors.
#![cfg(feature = "flaws")]

use navyspindle::{Kind, Lit, TypeError};

/// Literals that rustc accepts, each with the minus before it.
const TAKEN: &[(&str, &str)] = &[
    ("", "1u8"),
    ("", "255u8"),
    ("", "127i8"),
    ("", "0xFFu8"),
    ("", "0x1f32"),
    ("", "1f32"),
    ("", "1f64"),
    ("", "1.0f32"),
    ("", "1e5"),
    ("", "1.0e5f64"),
    ("", "18446744073709551615u64"),
    ("", "18446744073709551615usize"),
    ("", "340282366920938463463374607431768211455u128"),
    ("", r#""a""#),
    ("", "'a'"),
    ("", "true"),
    ("", "1_u8"),
    ("", "1__"),
    ("", "0b1_u16"),
    ("-", "128i8"),
    ("-", "32768i16"),
    ("-", "2147483648i32"),
    ("-", "9223372036854775808i64"),
    ("-", "170141183460469231731687303715884105728i128"),
    ("-", "1.0f32"),
    ("", "1.7976931348623158e308"),
    ("", "3.4028235677973366e38f32"),
    ("", "340282356779733661637539395458142568447f32"),
    ("", "0e999999999999999999999999999999999999999999f32"),
    ("", "1e-999999999999999999999999999999999999999999"),
];

/// Literals that rustc rejects, each with the minus before it.
const REJECTED: &[(&str, &str)] = &[
    ("", "256u8"),
    ("", "1u9"),
    ("", "1i7"),
    ("", "128i8"),
    ("", "0xFFi8"),
    ("", "0b1f32"),
    ("", "0o7f64"),
    ("", "1f16"),
    ("", "1.0u8"),
    ("", "1e5u8"),
    ("", "4294967296u32"),
    ("", "18446744073709551616u64"),
    ("", "18446744073709551616usize"),
    ("", "170141183460469231731687303715884105728i128"),
    ("", r#""a"q"#),
    ("", "'a'x"),
    ("", r#"b"a"b"#),
    ("", "b'a'u8"),
    ("", r#"c"a"c"#),
    ("", r#"r"a"r"#),
    ("", r##"r#"a"#u8"##),
    ("", "1_u_8"),
    ("", "0XFF"),
    ("", "10k"),
    ("", "65536u16"),
    ("-", "129i8"),
    ("-", "0b1f32"),
    ("", "1e400"),
    ("", "1.7976931348623159e308_f64"),
    ("", "1e39f32"),
    ("-", "3.4028235677973367e38f32"),
    ("", "340282356779733661637539395458142568448f32"),
    ("", "0.000_1e999999999999999999999999999999999999999999"),
];

/// Returns the error of a minus before a number of an unsigned type. rustc 1.95 reports E0600 for it.
fn minus_error(literal: &Lit) -> Option<TypeError> {
    let is_unsigned = matches!(literal, Lit::Int(_)) && literal.suffix().starts_with('u');
    is_unsigned.then_some(TypeError::OutOfRange)
}

/// Whether Rust has a type for the literal after the minus. The function also checks that the literal without its minus and the
/// literal with its minus have the same result.
fn has_type((minus, text): (&str, &str)) -> bool {
    let literal = Lit::of_text(text);
    let error = if minus.is_empty() {
        literal.type_error()
    } else {
        literal.type_error_negated()
    };
    let whole = Lit::of_text(format!("{minus}{text}"));
    if whole.kind() != Kind::Verbatim {
        assert_eq!(whole.type_error(), error, "{minus}{text}");
        let negated = Lit::of_text(format!("-{text}"));
        let error = negated.type_error_negated().or(minus_error(&negated));
        assert_eq!(negated.type_error(), error, "-{text}");
    }
    error.is_none()
}

#[test]
fn what_rustc_takes_has_a_type() {
    for row in TAKEN {
        assert!(has_type(*row), "{row:?}");
    }
}

#[test]
fn a_minus_before_an_unsigned_type_has_none() {
    for text in ["-1u8", "-0usize", "-0xFF_u128"] {
        let literal = Lit::parse(text).unwrap();
        assert_eq!(literal.type_error(), Some(TypeError::OutOfRange), "{text}");
    }
    assert_eq!(Lit::parse("-1").unwrap().type_error(), None);
}

#[test]
fn what_rustc_rejects_has_none() {
    for row in REJECTED {
        assert!(!has_type(*row), "{row:?}");
    }
}

/// rustc 1.95 rejects these literals with "binary float literal is not supported" and similar messages, whatever their number is.
#[test]
fn a_float_of_another_base_is_in_no_range() {
    let ones = format!("0b{}f32", "1".repeat(128));
    let sevens = format!("0o{}f64", "7".repeat(42));
    for text in [ones.as_str(), &sevens, "0b1f32"] {
        assert_eq!(
            Lit::of_text(text).type_error().unwrap().id(),
            "based-float",
            "{text}"
        );
    }
}

#[test]
fn an_error_has_words_and_a_name() {
    let error = Lit::of_text("1u9").type_error().unwrap();
    assert_eq!(error.to_string(), error.message());
    assert_eq!(error.id(), "unknown-suffix");
}

/// The digits of the least numbers that round to infinity, for `f32` and `f64`. Each number is halfway between the greatest finite
/// number and the next step.
const LEAST: [&str; 2] = [
    "340282356779733661637539395458142568448",
    "179769313486231580793728971405303415079934132710037826936173778980444968292764750946649017977587207096330286416692887910\
     946555547851940402630657488671505820681908902000708383676273854845817711531764475730270069855571366959622842914819860834\
     936475292719074168444365510704342711559699508093042880177904174497792",
];

/// Returns the text of a number with these digits and a dot after the first `dot` of them. The exponent gives the first of `length`
/// digits its original power of ten, times ten to the power `off`.
fn numeral(digits: &str, length: usize, dot: usize, off: i32) -> String {
    let power = i32::try_from(length - dot).expect("a few hundred digits") + off;
    format!("00_{}.{}e{power}", &digits[..dot], &digits[dot..])
}

#[test]
fn floats_are_out_of_range_where_std_reads_infinity() {
    let mut infinite = 0;
    for least in LEAST {
        for dot in (1..least.len()).step_by(5) {
            for at in [dot, least.len() - 1] {
                for byte in b'0'..=b'9' {
                    let mut digits = least.as_bytes()[..=at].to_vec();
                    digits[at] = byte;
                    let digits = String::from_utf8(digits).expect("digits");
                    for off in -1..=1 {
                        let text = numeral(&digits, least.len(), dot, off);
                        let plain = text.replace('_', "");
                        let in_f32 = plain.parse::<f32>().expect("a float").is_infinite();
                        let in_f64 = plain.parse::<f64>().expect("a float").is_infinite();
                        infinite += usize::from(in_f32) + usize::from(in_f64);
                        assert_eq!(Lit::of_text(&text).type_error().is_some(), in_f64, "{text}");
                        let text = format!("{text}f32");
                        assert_eq!(Lit::of_text(&text).type_error().is_some(), in_f32, "{text}");
                    }
                }
            }
        }
    }
    assert!(infinite > 500);
}
