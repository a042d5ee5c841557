//! Compares the literals that this package writes for values with those of the compiler's own functions.

use navyspindle::{
    write_byte, write_byte_str, write_c_str, write_char, write_char_ascii, write_integer,
    write_raw_byte_str, write_raw_c_str, write_raw_str, write_str, write_str_ascii, Base, Case,
    DigitGroups, Float, Integer, LitFloat, LitInt, Style,
};
use proc_macro::Literal;
use std::ffi::CString;

/// Characters that are escaped, that end a string, that require hashes in a raw string, or that take several bytes in UTF-8.
const CHARACTERS: &str =
    "a\"#\\'\n\r\t\0\u{7f}\u{80}é\u{7ff}\u{800}\u{202e}\u{ffff}\u{10000}\u{10ffff}";

/// Returns the source text of a slice of pairs of literals.
fn slice(pairs: &[(String, String)]) -> String {
    let pair = |(theirs, ours): &(String, String)| format!("({theirs}, {ours}),");
    format!("&[{}]", pairs.iter().map(pair).collect::<String>())
}

/// Returns all texts of up to two of the characters, and some longer ones with hashes.
fn texts() -> Vec<String> {
    let mut texts = vec![String::new()];
    for first in CHARACTERS.chars() {
        texts.push(first.to_string());
        texts.extend(CHARACTERS.chars().map(|second| format!("{first}{second}")));
    }
    for count in [1, 2, 3, 254] {
        let hashes = "#".repeat(count);
        texts.extend([
            format!("\"{hashes}"),
            format!("{hashes}\""),
            format!("a\"{hashes}b\"#\"c"),
            format!("\"{hashes}\"{hashes}#"),
        ]);
    }
    texts
}

fn strings() -> String {
    let of_text = |text: String| {
        let theirs = Literal::string(&text).to_string();
        let mut ours = vec![write_str(&text), write_str_ascii(&text)];
        ours.extend(write_raw_str(&text));
        ours.into_iter().map(move |it| (theirs.clone(), it))
    };
    slice(&texts().into_iter().flat_map(of_text).collect::<Vec<_>>())
}

fn byte_strings() -> String {
    let bytes = texts().into_iter().map(String::into_bytes);
    let bytes = bytes.chain((0..=255).map(|byte| vec![b'"', byte]));
    let of_bytes = |bytes: Vec<u8>| {
        let theirs = format!("{} as &[u8]", Literal::byte_string(&bytes));
        let mut ours = vec![write_byte_str(&bytes)];
        ours.extend(write_raw_byte_str(&bytes));
        ours.into_iter().map(move |it| (theirs.clone(), it))
    };
    slice(&bytes.flat_map(of_bytes).collect::<Vec<_>>())
}

fn c_strings() -> String {
    let bytes = texts().into_iter().map(String::into_bytes);
    let bytes = bytes.chain((1..=255).map(|byte| vec![b'"', byte]));
    let of_bytes = |bytes: Vec<u8>| {
        let value = CString::new(bytes).ok()?;
        let theirs = Literal::c_string(&value).to_string();
        let mut ours = vec![write_c_str(&value)];
        ours.extend(write_raw_c_str(&value));
        Some(ours.into_iter().map(move |it| (theirs.clone(), it)))
    };
    slice(&bytes.filter_map(of_bytes).flatten().collect::<Vec<_>>())
}

fn characters() -> String {
    let of_char = |c: char| {
        let theirs = Literal::character(c).to_string();
        [write_char(c), write_char_ascii(c)].map(|ours| (theirs.clone(), ours))
    };
    slice(&CHARACTERS.chars().flat_map(of_char).collect::<Vec<_>>())
}

fn bytes() -> String {
    let of_byte = |byte: u8| (format!("{byte}_u8"), write_byte(byte));
    slice(&(0..=255).map(of_byte).collect::<Vec<_>>())
}

/// Returns a style of integers for each combination of the tested options.
fn styles() -> Vec<Style> {
    let sizes = [0, 1, 2, 3, 4, 8, 127, 128, usize::MAX];
    let styles = sizes.map(|size| {
        let groups = DigitGroups::new().binary(size).octal(size).decimal(size);
        let style = Style::new().digit_groups(groups.hexadecimal(size));
        [Case::Lower, Case::Upper].map(|case| style.hex_digits(case))
    });
    styles.concat()
}

/// Returns pairs of literals for the number: as the compiler's own function writes it, and as the package writes it in each base and
/// style, with a suffix and without. In base ten the texts of a pair must be the same.
fn of_integer<N: Integer>(
    value: N,
    suffixed: &Literal,
    unsuffixed: &Literal,
) -> Vec<(String, String)> {
    let theirs = suffixed.to_string();
    let written = LitInt::suffixed(value);
    assert_eq!(written.text(), theirs);
    assert_eq!(LitInt::unsuffixed(value).text(), unsuffixed.to_string());
    let mut pairs = Vec::new();
    for base in [Base::Binary, Base::Octal, Base::Decimal, Base::Hexadecimal] {
        for style in styles() {
            let ours = write_integer(value, base, style);
            pairs.push((theirs.clone(), ours.clone() + written.suffix()));
            pairs.push((theirs.clone(), ours));
        }
    }
    pairs
}

macro_rules! integers {
    ($type:ident, $suffixed:ident, $unsuffixed:ident) => {{
        let mut values = vec![$type::MIN, $type::MAX, 0, 1, 9, 10, 15, 16, 99, 100];
        values.extend((1..$type::BITS).map(|bit| $type::MAX >> bit));
        values.extend((1..$type::BITS).map(|bit| ($type::MAX >> bit).wrapping_add(1)));
        values.extend((1..$type::BITS).map(|bit| $type::MIN >> bit));
        let of_value = |value: &$type| {
            of_integer(
                *value,
                &Literal::$suffixed(*value),
                &Literal::$unsuffixed(*value),
            )
        };
        slice(&values.iter().flat_map(of_value).collect::<Vec<_>>())
    }};
}

/// Returns pairs of expressions for the bits of the number: of the literal that the compiler's own function writes, and of those
/// that the package writes, with a suffix and without.
fn of_float<N: Float>(value: N, theirs: &Literal, name: &str) -> Vec<(String, String)> {
    let ours = [LitFloat::suffixed(value), LitFloat::unsuffixed(value)];
    let bits = |text: &str| format!("{name}::to_bits({text})");
    let ours = ours.map(|it| bits(it.expect("a number").text()));
    ours.map(|ours| (bits(&theirs.to_string()), ours)).to_vec()
}

macro_rules! floats {
    ($type:ident, $suffixed:ident) => {{
        let mut values = vec![
            0.0,
            -0.0,
            1.0,
            -1.5,
            0.1,
            $type::MAX,
            $type::MIN,
            $type::MIN_POSITIVE,
            $type::EPSILON,
            $type::from_bits(1),
        ];
        values.extend((-20..20).map(|power| $type::powi(10.0, power)));
        values.extend((-20..20).map(|power| $type::powi(-3.0, power)));
        let of_value =
            |value: &$type| of_float(*value, &Literal::$suffixed(*value), stringify!($type));
        slice(&values.iter().flat_map(of_value).collect::<Vec<_>>())
    }};
}

/// Returns pairs of literals of this kind or number type. The compiler's own functions write the first literal of a pair, and the
/// package writes the second.
pub fn written(name: &str) -> Option<String> {
    Some(match name {
        "str" => strings(),
        "byte_str" => byte_strings(),
        "c_str" => c_strings(),
        "char" => characters(),
        "byte" => bytes(),
        "u8" => integers!(u8, u8_suffixed, u8_unsuffixed),
        "u16" => integers!(u16, u16_suffixed, u16_unsuffixed),
        "u32" => integers!(u32, u32_suffixed, u32_unsuffixed),
        "u64" => integers!(u64, u64_suffixed, u64_unsuffixed),
        "u128" => integers!(u128, u128_suffixed, u128_unsuffixed),
        "usize" => integers!(usize, usize_suffixed, usize_unsuffixed),
        "i8" => integers!(i8, i8_suffixed, i8_unsuffixed),
        "i16" => integers!(i16, i16_suffixed, i16_unsuffixed),
        "i32" => integers!(i32, i32_suffixed, i32_unsuffixed),
        "i64" => integers!(i64, i64_suffixed, i64_unsuffixed),
        "i128" => integers!(i128, i128_suffixed, i128_unsuffixed),
        "isize" => integers!(isize, isize_suffixed, isize_unsuffixed),
        "f32" => floats!(f32, f32_suffixed),
        "f64" => floats!(f64, f64_suffixed),
        _ => return None,
    })
}
