//! Decodes the rows of `oracle/style_rows.py`: styles that are encoded as letters, and texts in hexadecimal. `oracle/restyled` uses
//! this file too.

use navyspindle::{Case, DigitGroups, Separator, Style};

const GROUPS: DigitGroups = DigitGroups::new()
    .binary(4)
    .decimal(3)
    .hexadecimal(4)
    .min_digits(5);
const ALL_GROUPS: DigitGroups = DigitGroups::new()
    .binary(8)
    .octal(3)
    .decimal(2)
    .hexadecimal(1);

/// Returns the style that the letters encode.
pub fn style_of(letters: &str) -> Style {
    letters.chars().fold(Style::new(), |style, c| match c {
        'x' => style.hex_digits(Case::Lower),
        'X' => style.hex_digits(Case::Upper),
        'e' => style.exponent_letter(Case::Lower),
        'E' => style.exponent_letter(Case::Upper),
        'd' => style.escape_digits(Case::Lower),
        'D' => style.escape_digits(Case::Upper),
        'u' => style.drop_underscores(true),
        'z' => style.drop_leading_zeros(true),
        's' => style.suffix_separator(Separator::Nothing),
        'S' => style.suffix_separator(Separator::Underscore),
        'g' => style.digit_groups(GROUPS),
        'G' => style.digit_groups(ALL_GROUPS),
        'f' => style.float_zero(true),
        'p' => style.drop_exponent_plus(true),
        'c' => style.fewest_escape_digits(true),
        'a' => style.drop_ascii_escapes(true),
        'n' => style.named_escapes(true),
        'q' => style.drop_quote_escapes(true),
        'h' => style.fewest_hashes(true),
        'r' => style.drop_raw(true),
        'i' => style.escape_invisible(true),
        _ => style,
    })
}

/// Decodes a text from hexadecimal digits. `-` encodes the empty text.
pub fn decoded(digits: &str) -> String {
    if digits == "-" {
        return String::new();
    }
    let byte = |at| u8::from_str_radix(&digits[at..at + 2], 16).unwrap();
    String::from_utf8((0..digits.len()).step_by(2).map(byte).collect()).unwrap()
}
