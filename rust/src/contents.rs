//! Decoded values of literals whose text differs from their value, such as strings with escapes.

use crate::rl_cursors::{split_segment, SegmentValue};
use crate::rl_lenient::{decode_bytes_into, float_digits_into};
use crate::rl_syntax::Kind;
use alloc::string::String;
use alloc::vec::Vec;

/// Returns the bytes of `front`, followed by the bytes that `write` writes for `body`. `write` receives a buffer as long as `body`,
/// which is long enough, and returns the number of bytes that it wrote.
#[inline]
fn written(front: &str, body: &str, write: impl FnOnce(&str, &mut [u8]) -> usize) -> Vec<u8> {
    let mut out = Vec::with_capacity(front.len() + body.len());
    out.extend_from_slice(front.as_bytes());
    out.resize(front.len() + body.len(), b' ');
    let len = write(body, &mut out[front.len()..]);
    out.truncate(front.len() + len);
    out
}

/// Returns the value of a string whose body has escapes: the values of the body's segments, joined. The value is no longer than the
/// body, which has an escape and so isn't empty.
pub(crate) fn text_of(body: &str) -> String {
    let (mut out, mut rest) = (String::with_capacity(body.len()), body);
    loop {
        let (value, after) = split_segment(Kind::Str, false, rest);
        rest = after;
        match value {
            SegmentValue::Text(run) => out.push_str(run),
            SegmentValue::Char(c) => out.push(c),
            SegmentValue::Byte(_) => unreachable!("a string holds characters"),
            SegmentValue::Nothing => {}
        }
        if rest.is_empty() {
            return out;
        }
    }
}

/// Returns the value of a byte string or a C string whose body has escapes.
#[inline]
pub(crate) fn bytes_of(kind: Kind, body: &str) -> Vec<u8> {
    written("", body, |body, out| decode_bytes_into(kind, body, out))
}

/// Returns the digits of a float, where `front` and `rest` are the float's text before its suffix. `front` is copied unchanged. In
/// `rest`, underscores and `+` are left out, and `E` becomes `e`.
pub(crate) fn digits_of(front: &str, rest: &str) -> String {
    String::from_utf8(written(front, rest, float_digits_into)).expect("digits are ASCII")
}
