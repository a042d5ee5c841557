// Rendered from crates/rl_cursors/src/segments.rt by tools/render, which erases contracts: change that file, and render again.
//! The segments of a quoted literal: the parts of the text between its quotes, each with its range and its value.

use crate::rl_lenient::units::{Piece, is_plain_char, parse_char_or_escape, split_plain};
use crate::rl_lenient::Body;
#[cfg(feature = "__rendered")]
use crate::rl_lenient::parse_literal;
use crate::rl_syntax::Kind;
use crate::rl_syntax::text::{before, split_char};

#[derive(Clone, Copy)]
pub enum SegmentValue<'t> {
    Text(&'t str),
    Char(char),
    Byte(u8),
    Nothing,
}

#[derive(Clone, Copy)]
pub struct Segment<'t> {
    pub lo: usize,
    pub hi: usize,
    pub value: SegmentValue<'t>,
}

pub struct Segments<'t> {
    kind: Kind,
    plain: bool,
    end: usize,
    rest: &'t str,
}

impl<'t> SegmentValue<'t> {
    #[inline(always)]
    pub fn len(self) -> usize {
        match self {
            SegmentValue::Text(run) => run.len(),
            SegmentValue::Char(c) => c.len_utf8(),
            SegmentValue::Byte(_) => 1,
            SegmentValue::Nothing => 0,
        }
    }
}

#[inline(always)]
fn split_run(kind: Kind, text: &str) -> (&str, &str) {
    if kind.is_string() {
        return split_plain(kind, text);
    }
    match split_char(text) {
        Some((c, rest)) if is_plain_char(kind, c) => (before(text, rest), rest),
        _ => ("", text),
    }
}

#[inline(always)]
fn value_of<'t>(kind: Kind, piece: Piece) -> SegmentValue<'t> {
    match piece {
        Piece::Character(c) => SegmentValue::Char(c),
        Piece::Byte(b) if kind.decodes_to_chars() => SegmentValue::Char(b as char),
        Piece::Byte(b) => SegmentValue::Byte(b),
        Piece::Nothing => SegmentValue::Nothing,
    }
}

#[cfg_attr(debug_assertions, inline)]
#[cfg_attr(not(debug_assertions), inline(always))]
pub fn split_segment(kind: Kind, plain: bool, text: &str) -> (SegmentValue<'_>, &str) {
    if plain {
        return (SegmentValue::Text(text), "");
    }
    let (run, following) = split_run(kind, text);
    if !run.is_empty() {
        return (SegmentValue::Text(run), following);
    }
    let Some((piece, after)) = parse_char_or_escape(kind, text) else {
        unreachable!()
    };
    (value_of(kind, piece), after)
}

impl<'t> Segment<'t> {
    #[inline(always)]
    pub fn text_offset(self, at: usize) -> usize {
        match self.value {
            SegmentValue::Text(_) => self.lo + at,
            _ => self.lo,
        }
    }

    #[inline(always)]
    pub fn text_offset_after(self, at: usize) -> usize {
        match self.value {
            SegmentValue::Text(_) => self.text_offset(at) + 1,
            _ => self.hi,
        }
    }

    #[inline(always)]
    pub fn value_offset(self, at: usize) -> usize {
        match self.value {
            SegmentValue::Text(_) => at.saturating_sub(self.lo),
            _ => 0,
        }
    }
}

impl<'t> Segments<'t> {
    #[inline(always)]
    pub fn of_body(kind: Kind, text: &'t str, body: &Body) -> Segments<'t> {
        Segments {
            kind,
            plain: body.plain,
            end: body.hi,
            rest: &text[body.lo..body.hi],
        }
    }

    #[cfg(feature = "__rendered")]
    #[inline]
    pub fn of(text: &'t str) -> Option<Segments<'t>> {
        let found = parse_literal(text)?;
        if !is_quoted(found.kind) {
            return None;
        }
        Some(Segments::of_body(found.kind, text, &found.body))
    }

    #[inline(always)]
    pub fn next(&mut self) -> Option<Segment<'t>> {
        if self.rest.is_empty() {
            return None;
        }
        let lo = self.end - self.rest.len();
        let (value, after) = split_segment(self.kind, self.plain, self.rest);
        let hi = self.end - after.len();
        self.rest = after;
        Some(Segment { lo, hi, value })
    }

    #[inline]
    pub fn next_offset(&self) -> usize {
        self.end - self.rest.len()
    }

    #[cfg_attr(debug_assertions, inline)]
    #[cfg_attr(not(debug_assertions), inline(always))]
    fn giving(mut self, at: usize) -> Option<(Segment<'t>, usize)> {
        let mut left = at;
        while let Some(segment) = self.next() {
            let len = segment.value.len();
            if left < len {
                return Some((segment, left));
            }
            left -= len;
        }
        None
    }

    #[inline]
    pub fn text_offset(self, at: usize) -> usize {
        let end = self.end;
        match self.giving(at) {
            Some((segment, within)) => segment.text_offset(within),
            None => end,
        }
    }

    #[inline]
    pub fn text_offset_after(self, at: usize) -> usize {
        let end = self.end;
        match self.giving(at) {
            Some((segment, within)) => segment.text_offset_after(within),
            None => end,
        }
    }

    #[inline]
    pub fn value_offset(mut self, at: usize) -> usize {
        let mut offset = 0;
        while let Some(segment) = self.next() {
            if at < segment.hi {
                return offset + segment.value_offset(at);
            }
            offset += segment.value.len();
        }
        offset
    }
}

impl<'t> Iterator for Segments<'t> {
    type Item = Segment<'t>;

    #[inline(always)]
    fn next(&mut self) -> Option<Segment<'t>> {
        Segments::next(self)
    }
}

#[cfg(feature = "__rendered")]
#[inline]
fn is_quoted(kind: Kind) -> bool {
    !matches!(kind, Kind::Int | Kind::Float | Kind::Bool)
}

#[cfg(feature = "__rendered")]
#[inline]
pub fn text_offset(text: &str, at: usize) -> Option<usize> {
    Some(Segments::of(text)?.text_offset(at))
}
