//! Compares the values of literals with the values that rustc gives to the same literals.

use navyspindle::{
    LitByte, LitByteStr, LitCStr, LitChar, LitFloat, LitInt, LitStr, NumberType, ValueErrorKind,
};
use std::ffi::CStr;

/// Checks that each literal has the same value in rustc and in the package.
macro_rules! same {
    ($($struct:ident: $type:ident: $($literal:literal)*;)*) => {$($(
        let literal = $struct::parse(stringify!($literal)).unwrap();
        let value: $type = $literal;
        assert_eq!(literal.value::<$type>(), Ok(value), "{literal}");
    )*)*};
}

/// Checks that each quoted literal has the same value in rustc and in the package. `$of` returns rustc's value in the package's type.
macro_rules! same_quoted {
    ($($struct:ident, $of:expr, $($literal:literal)*;)*) => {$($(
        let literal = $struct::parse(stringify!($literal)).unwrap();
        assert_eq!(literal.value(), $of($literal), "{literal}");
    )*)*};
}

#[test]
#[allow(clippy::all, clippy::pedantic)]
fn quoted_as_rustc_reads_them() {
    same_quoted! {
        LitStr, |it: &'static str| it, "" "'" "é€😀" "a\n\r\t\0\\\'\"" "\x00\x41\x7f" "\u{0}\u{e9}\u{1F_600}\u{10ffff}"
            "\
            a\
            b" r"\n" r#"a"b"# r##""#"## "a
b";
        LitByteStr, |it: &'static [u8]| it, b"" b"a\xFF\0\n\"" b"\
            a" br"\n" br#"a"b"#;
        LitCStr, CStr::to_bytes, c"" c"é\xFF\u{e9}\n" cr"\n" cr#"a"b"#;
        LitChar, char::from, 'a' '\'' '"' '\"' '\n' '\0' '\x7F' '\u{D7FF}' '\u{E000}' 'é' '😀';
        LitByte, u8::from, b'a' b'\'' b'"' b'\\' b'\r' b'\x00' b'\xfF';
    }
}

#[test]
#[allow(clippy::all, clippy::pedantic)]
fn as_rustc_reads_them() {
    same! {
        LitInt: u8: 0 1_u8 255 0xFF 0xFF_u8 0b1111_1111u8 0o377 00255u8;
        LitInt: u16: 256 65_535u16 0xFFFF;
        LitInt: u32: 65_536 4_294_967_295u32;
        LitInt: u64: 4_294_967_296 18_446_744_073_709_551_615u64;
        LitInt: u128: 18_446_744_073_709_551_616 340_282_366_920_938_463_463_374_607_431_768_211_455u128;
        LitInt: usize: 0 1usize 65_535_usize;
        LitInt: i8: 127 127i8 -128 -128i8 -0x80 -0b1i8 -0;
        LitInt: i16: -32_768 32_767i16;
        LitInt: i32: -2_147_483_648 2_147_483_647_i32;
        LitInt: i64: -9_223_372_036_854_775_808i64 9_223_372_036_854_775_807;
        LitInt: i128: -170_141_183_460_469_231_731_687_303_715_884_105_728i128 0x7F;
        LitInt: isize: -1isize 1;
        LitInt: f32: 1f32 1_0_f32 -7f32;
        LitInt: f64: 1f64 9007199254740993f64;
        LitFloat: f32: 0.1 1e3 1.5e-3f32 -2.5_f32 3.4028234e38 1e-50;
        LitFloat: f64: 0.1 1e3 1. 2.0f64 -1_0.5E+3 1.7976931348623157e308 1e-400 1E0_1;
    }
}

#[test]
fn as_rustc_rejects_them() {
    use NumberType::{F32, F64, I8, U128, U16, U8};
    use ValueErrorKind::{Form, Minus, OutOfRange, Suffix};
    macro_rules! rejected {
        ($($struct:ident $text:literal $type:ident $wanted:ident $kind:ident $range:expr;)*) => {$(
            let error = $struct::parse($text).unwrap().value::<$type>().unwrap_err();
            let found = (error.expected(), error.kind(), error.range());
            assert_eq!(found, ($wanted, $kind, $range), "{}", $text);
        )*};
    }
    rejected! {
        LitInt "256" u8 U8 OutOfRange 0..3;
        LitInt "0x100_u8" u8 U8 OutOfRange 0..6;
        LitInt "128" i8 I8 OutOfRange 0..3;
        LitInt "-129i8" i8 I8 OutOfRange 0..4;
        LitInt "-1" u16 U16 Minus 0..1;
        LitInt "-0u128" u128 U128 Minus 0..1;
        LitInt "1u16" u8 U8 Suffix 1..4;
        LitInt "10k" u8 U8 Suffix 2..3;
        LitInt "0XFF" u8 U8 Suffix 1..4;
        LitInt "1u9" u8 U8 Suffix 1..3;
        LitInt "1U8" u8 U8 Suffix 1..3;
        LitInt "1" f64 F64 Form 0..1;
        LitInt "1f32" f64 F64 Suffix 1..4;
        LitInt "0b1f32" f32 F32 Suffix 3..6;
        LitInt "340282366920938463463374607431768211455f32" f32 F32 OutOfRange 0..39;
        LitFloat "1.0" u8 U8 Form 0..3;
        LitFloat "1.0u8" f32 F32 Suffix 3..5;
        LitFloat "1.0f64" f32 F32 Suffix 3..6;
        LitFloat "1e39f32" f32 F32 OutOfRange 0..4;
        LitFloat "-1e400" f64 F64 OutOfRange 0..6;
    }
}

#[test]
fn said() {
    let said = |text: &str| {
        let error = LitInt::parse(text).unwrap().value::<u8>().unwrap_err();
        error.to_string()
    };
    assert_eq!(said("256"), "number out of range for u8 at byte 0");
    assert_eq!(said("-1"), "minus before a number of u8 at byte 0");
    assert_eq!(said("1k"), "suffix that isn't u8 at byte 1");
    let form = LitFloat::parse("1.5").unwrap().value::<u8>().unwrap_err();
    assert_eq!(form.to_string(), "float where u8 is wanted at byte 0");
    let form = LitInt::parse("1").unwrap().value::<f32>().unwrap_err();
    assert_eq!(form.to_string(), "integer where f32 is wanted at byte 0");
}
