//! Compares quoted literals with the translated libraries: values, parts, and the range of the text that each byte of the value
//! comes from. A value must be borrowed if the proved one is. Written literals are compared too.

use crate::literals::Proved;
use navyspindle::{
    write_byte, write_byte_str, write_c_str, write_char, write_str, Lit, Segment, SegmentValue,
};
use navyspindle_programs::rattle_std::alloc::Global;
use navyspindle_programs::rattle_std::vec::Vec as ProvedVec;
use navyspindle_programs::rl_grammar::{self, Found};
use navyspindle_programs::rl_quoted::{Quoted, QuotedKind};
use navyspindle_programs::rl_tokens;
use std::borrow::Cow;
use std::ffi::CString;
use std::fmt::Debug;
use std::ops::Range;

/// Checks a value, and whether it is borrowed.
#[track_caller]
fn check_value<T: ?Sized + ToOwned + PartialEq + Debug>(
    ours: Cow<T>,
    proved: &T,
    is_borrowed: bool,
    text: &str,
) {
    assert_eq!(&*ours, proved, "{text:?}");
    assert_eq!(matches!(ours, Cow::Borrowed(_)), is_borrowed, "{text:?}");
}

/// Shows a segment of the package.
fn shown(segment: &Segment) -> String {
    let range = &segment.range;
    match segment.value {
        SegmentValue::Text(text) => format!("{range:?} {text:?}"),
        SegmentValue::Char(c) => format!("{range:?} {c:?}"),
        SegmentValue::Byte(byte) => format!("{range:?} {byte}"),
        SegmentValue::Nothing => format!("{range:?}"),
        _ => panic!(),
    }
}

/// Shows a segment of the translated libraries.
fn shown_proved(segment: &rl_grammar::Segment) -> String {
    let range = segment.lo..segment.hi;
    match segment.value {
        rl_grammar::SegmentValue::Text(text) => format!("{range:?} {text:?}"),
        rl_grammar::SegmentValue::Char(c) => format!("{range:?} {c:?}"),
        rl_grammar::SegmentValue::Byte(byte) => format!("{range:?} {byte}"),
        rl_grammar::SegmentValue::Nothing => format!("{range:?}"),
    }
}

/// The package's functions that convert byte offsets of a quoted literal's value to its text.
struct Places<'p> {
    text_offset: &'p dyn Fn(usize) -> usize,
    text_range: &'p dyn Fn(Range<usize>) -> Range<usize>,
    places: navyspindle::OffsetMap,
}

/// Returns the first offsets, some in the middle, and the last offsets of a value with `len` bytes.
fn groups_if_any(len: usize) -> impl Iterator<Item = usize> {
    (0..=len + 1).filter(move |at| *at < 4 || (60..68).contains(at) || *at + 4 > len)
}

#[track_caller]
fn check_places<K: QuotedKind>(ours: &Places, proved: &Quoted<K>) {
    let text = proved.text();
    let base = rl_tokens::Span::new(0, 0, text.len());
    let spans = rl_grammar::value_byte_spans(Global, proved.segments(), base).unwrap();
    let spans = spans.as_slice();
    for (at, span) in spans.iter().enumerate() {
        assert_eq!(
            ours.places.byte_range(at),
            span.lo..span.hi,
            "{text:?} {at}"
        );
    }
    for lo in groups_if_any(spans.len()) {
        assert_eq!(
            (ours.text_offset)(lo),
            proved.text_offset(lo),
            "{text:?} {lo}"
        );
        for hi in groups_if_any(spans.len()) {
            // For an empty range, the result is where the text of the next byte begins.
            let last = if lo < hi {
                proved.text_offset_after(hi - 1)
            } else {
                proved.text_offset(lo)
            };
            let range = proved.text_offset(lo)..last;
            assert_eq!((ours.text_range)(lo..hi), range, "{text:?} {lo}..{hi}");
            assert_eq!(ours.places.text_range(lo..hi), range, "{text:?} {lo}..{hi}");
        }
    }
}

/// Checks the properties that all five kinds of quoted literals share.
macro_rules! check_quoted {
    ($literal:expr, $ours:expr, $proved:expr, $found:expr) => {{
        let (literal, ours, proved) = ($literal, $ours, $proved);
        let text = proved.text();
        let segments: Vec<_> = ours.segments().map(|it| shown(&it)).collect();
        let expected: Vec<_> = proved.segments().map(|it| shown_proved(&it)).collect();
        assert_eq!(segments, expected, "{text:?}");
        assert_eq!(format!("{ours:*<9}"), format!("{text:*<9}"));
        let of_any: Vec<_> = literal.segments().unwrap().map(|it| shown(&it)).collect();
        assert_eq!(of_any, expected, "{text:?}");
        assert_eq!(
            ours.suffix_range(),
            $found.body.suffix_at..text.len(),
            "{text:?}"
        );
        for places in [Some(ours.offset_map()), literal.offset_map()] {
            let places = Places {
                text_offset: &|at| ours.text_offset(at),
                text_range: &|range| ours.text_range(range),
                places: places.unwrap(),
            };
            check_places(&places, proved);
        }
    }};
}

/// Checks the properties that strings, byte strings and C strings share.
macro_rules! check_string {
    ($ours:expr, $found:expr, $text:expr, $value:expr, $is_borrowed:expr) => {{
        let (ours, text, body) = ($ours, $text, $found.body);
        assert_eq!(ours.body_range(), body.lo..body.hi, "{text:?}");
        assert_eq!(ours.body(), $found.body_in(text), "{text:?}");
        let (opener, _) = text.split_once('"').unwrap();
        assert_eq!(ours.is_raw(), opener.contains('r'), "{text:?}");
        assert_eq!(ours.hashes(), opener.matches('#').count(), "{text:?}");
        check_value(ours.value(), $value, $is_borrowed, text);
        // If the literal owns its text, the value is owned too.
        let is_owned = matches!(ours.clone().into_text(), Cow::Owned(_));
        check_value(
            ours.clone().into_value(),
            $value,
            $is_borrowed && !is_owned,
            text,
        );
    }};
}

pub fn check(ours: &Lit, proved: &Proved, found: &Found) {
    let text = proved.text();
    match (ours, proved) {
        (Lit::Str(a), Proved::Str(b)) => {
            check_quoted!(ours, a, b, found);
            let value = b.value(Global).unwrap();
            check_string!(a, found, text, value.as_str(), b.value_ref().is_some());
        }
        (Lit::ByteStr(a), Proved::ByteStr(b)) => {
            check_quoted!(ours, a, b, found);
            let value = b.value(Global).unwrap();
            check_string!(a, found, text, value.as_slice(), b.value_ref().is_some());
        }
        (Lit::CStr(a), Proved::CStr(b)) => {
            check_quoted!(ours, a, b, found);
            let value = b.value(Global).unwrap();
            check_string!(a, found, text, value.as_bytes(), b.value_ref().is_some());
            assert_eq!(a.c_string().as_bytes(), value.as_bytes(), "{text:?}");
        }
        (Lit::Byte(a), Proved::Byte(b)) => {
            check_quoted!(ours, a, b, found);
            assert_eq!(a.value(), b.value(), "{text:?}");
        }
        (Lit::Char(a), Proved::Char(b)) => {
            check_quoted!(ours, a, b, found);
            assert_eq!(a.value(), b.value(), "{text:?}");
        }
        _ => assert!(
            ours.segments().is_none() && ours.offset_map().is_none(),
            "{text:?}"
        ),
    }
}

/// Checks the literals that are written for the text and for its bytes.
pub fn check_written(text: &str) {
    let string = rl_tokens::Literal::string(Global, text).unwrap();
    assert_eq!(write_str(text), string.text());
    let bytes = text.as_bytes();
    let string = rl_tokens::Literal::byte_string(Global, bytes).unwrap();
    assert_eq!(write_byte_str(bytes), string.text());
    if let Ok(value) = CString::new(bytes) {
        // The proved writer escapes each non-ASCII byte. The package does so if the value isn't UTF-8.
        assert_eq!(write_c_str(&value), format!("c{}", write_str(text)));
        let value = CString::new([bytes, b"\xff"].concat()).unwrap();
        let mut copied = ProvedVec::new(Global);
        for byte in value.to_bytes() {
            assert!(copied.push(*byte).is_ok());
        }
        let Ok(proved) = rl_tokens::CString::new(copied) else {
            panic!("{text:?}")
        };
        let string = rl_tokens::Literal::c_string(Global, &proved).unwrap();
        assert_eq!(write_c_str(&value), string.text());
    }
}

/// Checks the literal that is written for a character, and the one for the byte with the same number.
pub fn check_written_character(c: char) {
    let character = rl_tokens::Literal::character(Global, c).unwrap();
    assert_eq!(write_char(c), character.text());
    if let Ok(byte) = u8::try_from(c as u32) {
        let character = rl_tokens::Literal::byte_character(Global, byte).unwrap();
        assert_eq!(write_byte(byte), character.text());
        let string = rl_tokens::Literal::byte_string(Global, &[byte; 9]).unwrap();
        assert_eq!(write_byte_str(&[byte; 9]), string.text());
    }
}
