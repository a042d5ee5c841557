//! Tests the grammar functions on single texts.

use crate::rows::{check, check_headings};
use crate::shown::{debug_or_error, range};
use navyspindle_programs::rattle_std::alloc::Global;
use navyspindle_programs::rl_grammar::{
    self, text_offset, value_byte_spans, Kind, Parts, SegmentValue, Segments,
};
use navyspindle_programs::rl_tokens::{whitespace, Span};

const TABLE: &str = include_str!("grammar.rows");

#[test]
fn headings() {
    check_headings(TABLE, include_str!("grammar.rs"));
}

/// Shows a literal's kind, body and suffix, with a dot between body and suffix.
fn parts(parts: Option<Parts<'_>>) -> String {
    parts.map_or("None".to_owned(), |it| {
        format!("{:?} {}.{}", it.kind, it.body, it.suffix)
    })
}

#[test]
fn shape() {
    check(TABLE, "shape", |text| parts(rl_grammar::shape(text)));
}

/// Shows the parts of an integer. An integer above 128 bits is shown as `past`.
#[test]
fn int_shape() {
    check(TABLE, "int_shape", |text| {
        match rl_grammar::int_shape(text) {
            Some(None) => "past".to_owned(),
            shape => parts(shape.flatten()),
        }
    });
}

#[test]
fn float_shape() {
    check(TABLE, "float_shape", |text| {
        parts(rl_grammar::float_shape(text))
    });
}

#[test]
fn shape_negative() {
    check(TABLE, "shape_negative", |text| {
        parts(rl_grammar::shape_negative(text))
    });
}

/// Shows whether the text between a literal's quotes is its decoded value, unchanged. A row's first line is the name of the
/// literal's kind.
#[test]
fn is_plain() {
    check(TABLE, "plain", |row| {
        let (name, text) = row.split_once('\n').unwrap();
        let kind = match name {
            "Str" => Kind::Str,
            "ByteStr" => Kind::ByteStr,
            "CStr" => Kind::CStr,
            "Byte" => Kind::Byte,
            "Char" => Kind::Char,
            "Int" => Kind::Int,
            "Float" => Kind::Float,
            "Bool" => Kind::Bool,
            _ => panic!("no kind {name}"),
        };
        rl_grammar::is_plain(kind, text).to_string()
    });
}

/// Shows a literal's decoded value: bytes, the number of a character, or digits.
#[test]
fn contents() {
    check(TABLE, "contents", |text| {
        match rl_grammar::shape(text).map(|it| it.kind) {
            Some(Kind::Str) => {
                format!("{:?}", rl_grammar::str_of(Global, text).unwrap().as_bytes())
            }
            Some(Kind::ByteStr | Kind::CStr) => debug_or_error(rl_grammar::bytes_of(Global, text)),
            Some(Kind::Byte) => rl_grammar::byte_of(text).to_string(),
            Some(Kind::Char) => u32::from(rl_grammar::char_of(text)).to_string(),
            Some(kind @ (Kind::Int | Kind::Float)) => rl_grammar::digits_of(Global, kind, text)
                .unwrap()
                .as_str()
                .to_owned(),
            Some(Kind::Bool) => text.to_owned(),
            None => "None".to_owned(),
        }
    });
}

#[test]
fn skip() {
    check(TABLE, "skipped", |text| whitespace::skip(text).to_owned());
}

/// Shows a segment's byte range, and its value: the length of plain text, or the number of an escape's character or byte.
fn segment(lo: usize, hi: usize, value: SegmentValue<'_>) -> String {
    let value = match value {
        SegmentValue::Text(run) => format!("T{}", run.len()),
        SegmentValue::Char(c) => format!("C{}", u32::from(c)),
        SegmentValue::Byte(byte) => format!("B{byte}"),
        SegmentValue::Nothing => "N".to_owned(),
    };
    format!("{lo}..{hi} {value} ")
}

/// Shows a literal's segments, and the byte range that each byte of the value comes from. The ranges are computed by `value_byte_spans`,
/// and again by `text_offset` and `text_offset_after`, up to two bytes beyond the value's end.
#[test]
fn segments() {
    check(TABLE, "segments", |text| {
        if Segments::of(text).is_none() {
            return "None".to_owned();
        }
        let segments = || Segments::of(text).unwrap();
        let lines: String = segments()
            .map(|it| segment(it.lo, it.hi, it.value))
            .collect();
        let bytes: usize = segments().map(|it| it.value.len()).sum();
        let spans = value_byte_spans(Global, segments(), Span::new(7, 0, text.len())).unwrap();
        let table: String = spans.iter().map(|span| range(*span) + " ").collect();
        let each = (0..=bytes + 1).filter_map(|at| {
            Some(format!(
                "{}..{} ",
                text_offset(text, at)?,
                segments().text_offset_after(at)
            ))
        });
        format!("{lines}\n{table}\n{}", each.collect::<String>())
    });
}
