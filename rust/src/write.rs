//! Functions that write values as literals. Each result is a literal token of the Rust Reference, after a minus for a negative
//! number. Parsing the literal returns the value.

use crate::numbers::Base;
use crate::rl_syntax::{write_bytes_into, write_char_into, write_str_into, IntegerType, Kind};
use crate::rl_writing::{
    min_raw_hashes, raw_text_and_hashes, write_char_ascii_into, write_integer_into, write_raw_into,
    write_str_ascii_into, IntegerStyle,
};
use crate::style::Style;
use crate::value::Integer;
use alloc::string::String;
use alloc::vec;
use core::ffi::CStr;

/// The size of the buffer on the stack, into which short literals are written.
const SHORT: usize = 256;

/// Returns the literal that `write` writes to a buffer of `room` bytes. The string's capacity is its length. `write` returns the
/// length.
fn written_within(room: usize, write: impl FnOnce(&mut [u8]) -> usize) -> String {
    if room <= SHORT {
        let mut out = [0; SHORT];
        let len = write(&mut out);
        let text = core::str::from_utf8(&out[..len]);
        return String::from(text.expect("literals are UTF-8"));
    }
    let mut out = vec![0; room];
    let len = write(&mut out);
    out.truncate(len);
    out.shrink_to_fit();
    String::from_utf8(out).expect("literals are UTF-8")
}

/// Returns the literal that `write` writes for a value of `len` bytes, or for one character (`len` is 1). The buffer has four bytes
/// for each byte of the value, and three more. For a character these are seven bytes.
fn written(len: usize, write: impl FnOnce(&mut [u8]) -> usize) -> String {
    let room = len.checked_mul(4).and_then(|len| len.checked_add(3));
    written_within(room.expect("no value is that long"), write)
}

/// Writes the text as a string literal.
///
/// Quotes, backslashes and ASCII controls are escaped. All other characters are written unchanged. These include invisible and
/// bidirectional characters such as U+202E, which rustc's lint `text_direction_codepoint_in_literal` denies in sources.
///
/// ```
/// assert_eq!(navyspindle::write_str("a\t\"é\u{1}"), r#""a\t\"é\x01""#);
/// ```
#[doc(alias = "escape_default")]
#[doc(alias = "string")]
#[inline]
#[must_use]
pub fn write_str(value: &str) -> String {
    written(value.len(), |out| write_str_into(value, out))
}

/// Writes the bytes as a byte string literal, with escapes where they are needed.
///
/// ```
/// assert_eq!(navyspindle::write_byte_str(b"a\n\xff"), r#"b"a\n\xFF""#);
/// ```
#[doc(alias = "byte_string")]
#[inline]
#[must_use]
pub fn write_byte_str(value: &[u8]) -> String {
    written(value.len(), |out| {
        write_bytes_into(Kind::ByteStr, value, out)
    })
}

/// Writes the C string as a C string literal, with escapes where they are needed. If the C string isn't UTF-8, each non-ASCII byte is
/// escaped. Otherwise non-ASCII characters are written unchanged, as [`write_str`] writes them.
///
/// ```
/// use navyspindle::write_c_str;
///
/// assert_eq!(write_c_str(c"a\u{e9}\n"), r#"c"aé\n""#);
/// assert_eq!(write_c_str(c"\xff\xc3\xa9"), r#"c"\xFF\xC3\xA9""#);
/// ```
#[doc(alias = "c_string")]
#[inline]
#[must_use]
pub fn write_c_str(value: &CStr) -> String {
    let bytes = value.to_bytes();
    match value.to_str() {
        // The escapes of a string literal mean the same in a C string literal.
        Ok(text) => written(text.len() + 1, |out| {
            out[0] = b'c';
            1 + write_str_into(text, &mut out[1..])
        }),
        Err(_) => written(bytes.len(), |out| write_bytes_into(Kind::CStr, bytes, out)),
    }
}

/// Writes the byte as a byte literal, with an escape if it is needed.
///
/// ```
/// assert_eq!(navyspindle::write_byte(b'\''), r"b'\''");
/// ```
#[doc(alias = "byte_character")]
#[inline]
#[must_use]
pub fn write_byte(value: u8) -> String {
    written(1, |out| write_bytes_into(Kind::Byte, &[value], out))
}

/// Writes the character as a character literal, with an escape if it is needed.
///
/// ```
/// assert_eq!(navyspindle::write_char('\n'), r"'\n'");
/// ```
#[doc(alias = "character")]
#[inline]
#[must_use]
pub fn write_char(value: char) -> String {
    written(1, |out| write_char_into(value, out))
}

/// Writes the text as an ASCII string literal: as [`write_str`], with `\u{..}` for each non-ASCII character.
///
/// ```
/// assert_eq!(navyspindle::write_str_ascii("a\t\u{e9}\u{1F600}"), r#""a\t\u{e9}\u{1f600}""#);
/// ```
#[inline]
#[must_use]
pub fn write_str_ascii(value: &str) -> String {
    written(value.len(), |out| write_str_ascii_into(value, out))
}

/// Writes the character as an ASCII character literal: as [`write_char`], with `\u{..}` for a non-ASCII character.
///
/// ```
/// assert_eq!(navyspindle::write_char_ascii('é'), r"'\u{e9}'");
/// ```
#[inline]
#[must_use]
pub fn write_char_ascii(value: char) -> String {
    written_within(12, |out| write_char_ascii_into(value, out))
}

/// Returns the raw literal of kind `kind` with the text `text` between its quotes and `hashes` hashes.
#[inline]
fn raw(kind: Kind, text: &str, hashes: usize) -> String {
    let room = text.len().checked_add(2 * hashes + 4);
    written_within(room.expect("no text is that long"), |out| {
        write_raw_into(kind, hashes, text, out)
    })
}

/// Writes the text as a raw string literal, with the fewest `#` that it needs.
///
/// Returns `None` if the text contains a CR, or needs more than 255 `#`, because it has no raw literal then. All characters are
/// written unchanged, including invisible and bidirectional ones, as in [`write_str`].
///
/// ```
/// use navyspindle::write_raw_str;
///
/// assert_eq!(write_raw_str(r"a\b").as_deref(), Some(r#"r"a\b""#));
/// assert_eq!(write_raw_str("\"#").as_deref(), Some("r##\"\"#\"##"));
/// assert_eq!(write_raw_str("\r\n"), None);
/// ```
#[inline]
#[must_use]
pub fn write_raw_str(value: &str) -> Option<String> {
    let hashes = min_raw_hashes(Kind::Str, value)?;
    Some(raw(Kind::Str, value, hashes))
}

/// Writes the bytes as a raw byte string literal, with the fewest `#` that they need.
///
/// Returns `None` if the bytes aren't all ASCII, contain a CR, or need more than 255 `#`, because they have no raw literal then.
///
/// ```
/// use navyspindle::write_raw_byte_str;
///
/// assert_eq!(write_raw_byte_str(b"a\\b").as_deref(), Some(r#"br"a\b""#));
/// assert_eq!(write_raw_byte_str(b"\xff"), None);
/// ```
#[inline]
#[must_use]
pub fn write_raw_byte_str(value: &[u8]) -> Option<String> {
    let (text, hashes) = raw_text_and_hashes(Kind::ByteStr, value)?;
    Some(raw(Kind::ByteStr, text, hashes))
}

/// Writes the C string as a raw C string literal, with the fewest `#` that it needs.
///
/// Returns `None` if the C string isn't UTF-8, contains a CR, or needs more than 255 `#`, because it has no raw literal then.
///
/// ```
/// use navyspindle::write_raw_c_str;
///
/// assert_eq!(write_raw_c_str(c"a\\b").as_deref(), Some(r#"cr"a\b""#));
/// assert_eq!(write_raw_c_str(c"\xff"), None);
/// ```
#[inline]
#[must_use]
pub fn write_raw_c_str(value: &CStr) -> Option<String> {
    let (text, hashes) = raw_text_and_hashes(Kind::CStr, value.to_bytes())?;
    Some(raw(Kind::CStr, text, hashes))
}

/// The length of the longest integer literal: two bytes of a prefix, 128 digits, an underscore after each digit except the last,
/// and five bytes of a suffix.
const LONGEST_INTEGER: usize = 262;

/// Writes the number as an integer literal without a suffix. A negative number has a minus before the literal. Of the style, only
/// [`Style::hex_digits`] and [`Style::digit_groups`] matter. [`LitInt::suffixed`](crate::LitInt::suffixed) writes a suffix.
///
/// ```
/// use navyspindle::{write_integer, Base, Case, DigitGroups, Style};
///
/// const STYLE: Style = Style::new().hex_digits(Case::Upper).digit_groups(DigitGroups::new().decimal(3).hexadecimal(4));
/// assert_eq!(write_integer(u32::MAX, Base::Decimal, STYLE), "4_294_967_295");
/// assert_eq!(write_integer(0xB8000, Base::Hexadecimal, STYLE), "0xB_8000");
/// assert_eq!(write_integer(i8::MIN, Base::Hexadecimal, Style::new()), "-0x80");
/// ```
#[must_use]
pub fn write_integer<N: Integer>(value: N, base: Base, style: Style) -> String {
    written_integer(value, style.of_integers(base), None)
}

/// Writes the number as an integer literal, with the suffix if there is one.
pub(crate) fn written_integer<N: Integer>(
    value: N,
    style: IntegerStyle,
    suffix: Option<IntegerType>,
) -> String {
    let mut out = [0; LONGEST_INTEGER];
    let len = write_integer_into(value.magnitude(), style, suffix, &mut out);
    let text = core::str::from_utf8(&out[..len]).expect("literals are ASCII");
    let sign = if value.is_negative() { "-" } else { "" };
    [sign, text].concat()
}

#[cfg(test)]
mod tests {
    use super::*;
    use std::ffi::CString;

    /// Checks that a result's capacity is its length: for short values, for values just below and above the stack's buffer, and for
    /// long values without escapes or with an escape for each byte.
    #[test]
    fn no_more_room_than_is_taken() {
        for count in [0, 1, 62, 63, 64, 1_000, 100_000] {
            for value in ["a", "\n", "\u{1}", "\u{e9}", "\u{1f600}"] {
                let value = value.repeat(count);
                for written in [write_str(&value), write_byte_str(value.as_bytes())] {
                    assert_eq!(written.capacity(), written.len(), "{count}");
                }
            }
        }
        assert_eq!(write_byte(b'\x01').capacity(), 7);
        assert_eq!(write_char('a').capacity(), 3);
        let value = CString::new(b"\x01".repeat(1_000)).unwrap();
        assert_eq!(write_c_str(&value).capacity(), 4_003);
    }
}
