//! The segments of a literal's text, and the maps between byte offsets of the text and of the value.

use crate::rl_cursors;
use crate::rl_lenient::Body;
use crate::rl_syntax::Kind;
use alloc::vec::Vec;
use core::fmt;
use core::iter::FusedIterator;
use core::ops::Range;

/// The value of a segment of a quoted literal.
///
/// ```
/// use navyspindle::{LitStr, SegmentValue};
///
/// let literal = LitStr::parse(r#""ab\n""#)?;
/// let values: Vec<_> = literal.segments().map(|it| it.value).collect();
/// assert_eq!(values, [SegmentValue::Text("ab"), SegmentValue::Char('\n')]);
/// # Ok::<(), navyspindle::ParseError>(())
/// ```
#[derive(Clone, Copy, Debug, PartialEq, Eq, Hash)]
#[non_exhaustive]
pub enum SegmentValue<'t> {
    /// A sequence of plain characters, as long as possible.
    Text(&'t str),
    /// The character of an escape, or the LF that a CR LF counts as. In a literal whose value is bytes, only the character of
    /// `\u{..}`.
    Char(char),
    /// In a literal whose value is bytes, the byte of any escape other than `\u{..}`, or the LF that a CR LF counts as.
    Byte(u8),
    /// No character: a backslash, a line end, and the white space after the line end.
    Nothing,
}

/// A part of the text between a literal's quotes, with its value.
///
/// ```
/// use navyspindle::LitStr;
///
/// let literal = LitStr::parse(r#""ab\n""#)?;
/// let last = literal.segments().last().unwrap();
/// assert_eq!((last.range, last.value_range), (3..5, 2..3));
/// # Ok::<(), navyspindle::ParseError>(())
/// ```
#[derive(Clone, Debug, PartialEq, Eq, Hash)]
#[non_exhaustive]
pub struct Segment<'t> {
    /// The byte range of the segment in the literal's text.
    pub range: Range<usize>,
    /// The byte range that the segment gives in the literal's value. It is empty for an escaped line end.
    pub value_range: Range<usize>,
    /// The value of the segment.
    pub value: SegmentValue<'t>,
}

impl<'t> Segment<'t> {
    /// Creates a segment. `value_offset` is the number of bytes of the value before the segment.
    #[inline]
    pub(crate) fn of(segment: rl_cursors::Segment<'t>, value_offset: usize) -> Segment<'t> {
        let value_range = value_offset..value_offset + segment.value.len();
        let value = match segment.value {
            rl_cursors::SegmentValue::Text(text) => SegmentValue::Text(text),
            rl_cursors::SegmentValue::Char(c) => SegmentValue::Char(c),
            rl_cursors::SegmentValue::Byte(byte) => SegmentValue::Byte(byte),
            rl_cursors::SegmentValue::Nothing => SegmentValue::Nothing,
        };
        Segment {
            range: segment.lo..segment.hi,
            value_range,
            value,
        }
    }
}

/// An iterator over the segments of a quoted literal, in order. See [`LitStr::segments`](crate::LitStr::segments).
///
/// ```
/// use navyspindle::{LitStr, Segments};
///
/// let string = LitStr::parse(r#""a\n""#)?;
/// let segments: Segments = string.segments();
/// assert_eq!(segments.map(|segment| segment.range).collect::<Vec<_>>(), [1..2, 2..4]);
/// # Ok::<(), navyspindle::ParseError>(())
/// ```
#[doc(alias = "unescape")]
#[must_use = "an iterator does nothing until it is asked"]
pub struct Segments<'t> {
    text: &'t str,
    kind: Kind,
    parts: Body,
    cursor: rl_cursors::Segments<'t>,
    // The number of bytes of the value that the returned segments give.
    value_offset: usize,
}

impl<'t> Segments<'t> {
    /// Creates the iterator over the segments of a literal of kind `kind`. `parts` has the byte offsets of the literal's parts.
    #[inline]
    pub(crate) fn of(kind: Kind, text: &'t str, parts: Body) -> Self {
        Segments {
            text,
            kind,
            parts,
            cursor: rl_cursors::Segments::of_body(kind, text, &parts),
            value_offset: 0,
        }
    }
}

impl<'t> Iterator for Segments<'t> {
    type Item = Segment<'t>;

    #[inline]
    fn next(&mut self) -> Option<Segment<'t>> {
        let segment = Segment::of(self.cursor.next()?, self.value_offset);
        self.value_offset = segment.value_range.end;
        Some(segment)
    }
}

impl FusedIterator for Segments<'_> {}

/// The clone begins at the segment that the original iterator returns next.
impl Clone for Segments<'_> {
    #[inline]
    fn clone(&self) -> Self {
        let lo = self.cursor.next_offset();
        let left = Body { lo, ..self.parts };
        Segments {
            cursor: rl_cursors::Segments::of_body(self.kind, self.text, &left),
            ..*self
        }
    }
}

/// Prints the byte offset at which the next segment begins.
impl fmt::Debug for Segments<'_> {
    fn fmt(&self, f: &mut fmt::Formatter<'_>) -> fmt::Result {
        let at = self.cursor.next_offset();
        f.debug_tuple("Segments").field(&at).finish()
    }
}

/// A map from each byte of a literal's value to the range of the literal's text that it comes from, and back. See
/// [`LitStr::offset_map`](crate::LitStr::offset_map).
///
/// The map is built in one walk over the literal. The time of a lookup grows with the logarithm of the number of segments. The map
/// takes some 40 bytes for each segment.
///
/// ```
/// use navyspindle::{LitStr, OffsetMap};
///
/// let map: OffsetMap = LitStr::parse(r#""\u{e9}b""#)?.offset_map();
/// // `é` has two bytes, then `b` follows.
/// assert_eq!((map.byte_range(1), map.byte_range(2)), (1..7, 7..8));
/// # Ok::<(), navyspindle::ParseError>(())
/// ```
#[derive(Clone, Debug, PartialEq, Eq, Hash)]
pub struct OffsetMap {
    // For each segment with a value: the byte offset at which it begins in the value, its range in the text, and whether it is
    // plain characters.
    segments: Vec<(usize, Range<usize>, bool)>,
    // The number of bytes of the value, and the byte offset of the closing quote in the text.
    end: (usize, usize),
}

impl OffsetMap {
    #[inline]
    pub(crate) fn of(mut segments: rl_cursors::Segments<'_>) -> OffsetMap {
        let (mut places, mut at) = (Vec::new(), 0);
        while let Some(segment) = segments.next() {
            let len = segment.value.len();
            if len > 0 {
                let is_text = matches!(segment.value, rl_cursors::SegmentValue::Text(_));
                places.push((at, segment.lo..segment.hi, is_text));
            }
            at += len;
        }
        let end = (at, segments.next_offset());
        OffsetMap {
            segments: places,
            end,
        }
    }

    /// Returns the byte range of the text that gives the byte of the value at the offset `at`. For an escape it is the whole
    /// escape. For plain text it is that one byte, so the range may begin or end inside a character: slice the text's bytes, not the
    /// `str`. At and beyond the value's end it is an empty range at the closing quote.
    ///
    /// ```
    /// use navyspindle::LitStr;
    ///
    /// let places = LitStr::parse(r#""a\x41b""#)?.offset_map();
    /// assert_eq!((places.byte_range(0), places.byte_range(1), places.byte_range(2)), (1..2, 2..6, 6..7));
    /// # Ok::<(), navyspindle::ParseError>(())
    /// ```
    #[inline]
    #[must_use]
    pub fn byte_range(&self, at: usize) -> Range<usize> {
        let (len, quote) = self.end;
        if at >= len {
            return quote..quote;
        }
        let place = self.segments.partition_point(|segment| segment.0 <= at) - 1;
        let (begin, range, is_text) = &self.segments[place];
        if *is_text {
            let byte = range.start + (at - begin);
            byte..byte + 1
        } else {
            range.clone()
        }
    }

    /// Returns the byte range of the text that gives the byte range `bytes` of the value. It reaches from the text of the first
    /// byte to the text of the last byte. An escaped line end after the last byte isn't included. For an empty or reversed range
    /// the result is an empty range, where the text of the byte at `bytes.start` begins.
    ///
    /// ```
    /// use navyspindle::LitStr;
    ///
    /// let text = r#""a\x41b""#;
    /// let places = LitStr::parse(text)?.offset_map();
    /// assert_eq!(&text[places.text_range(1..3)], r"\x41b");
    /// # Ok::<(), navyspindle::ParseError>(())
    /// ```
    #[inline]
    #[must_use]
    pub fn text_range(&self, bytes: Range<usize>) -> Range<usize> {
        let lo = self.byte_range(bytes.start).start;
        if bytes.is_empty() {
            return lo..lo;
        }
        lo..self.byte_range(bytes.end - 1).end
    }

    /// Returns the byte offset in the value of the byte of the text at the offset `at`.
    ///
    /// In an escape, the result is the offset of the first byte of the escape's value. In an escaped line end, it is the offset of
    /// the byte after it. Before the text between the quotes, it is 0. After that text, it is the value's length.
    ///
    /// ```
    /// use navyspindle::LitStr;
    ///
    /// let places = LitStr::parse(r#""a\x41b""#)?.offset_map();
    /// assert_eq!((places.value_offset(1), places.value_offset(4), places.value_offset(6)), (0, 1, 2));
    /// # Ok::<(), navyspindle::ParseError>(())
    /// ```
    #[inline]
    #[must_use]
    pub fn value_offset(&self, at: usize) -> usize {
        let after = self
            .segments
            .partition_point(|(_, range, _)| range.end <= at);
        match self.segments.get(after) {
            Some((begin, range, true)) => begin + at.saturating_sub(range.start),
            Some((begin, _, false)) => *begin,
            None => self.end.0,
        }
    }
}

/// Writes the methods of a quoted literal's struct that return segments and offsets. The struct needs a `KIND` and the method
/// `parts`. `$text` is a literal for the examples. The first byte of its value comes from the range `$range` of the text, and the
/// second one from the offset `$place`.
macro_rules! quoted_type {
    ($name:ident, $text:literal, $range:literal, $place:literal) => {
        impl $name<'_> {
            /// Returns the proved cursor over the literal's segments.
            #[inline]
            pub(crate) fn cursor(&self) -> $crate::rl_cursors::Segments<'_> {
                $crate::rl_cursors::Segments::of_body(Self::KIND, &self.text, &self.parts())
            }

            /// Returns the segments between the quotes, with their ranges in the literal's text. A segment is a sequence of plain
            /// characters, as long as possible, an escape, or an escaped line end.
            #[cfg_attr(doc, doc = $crate::common::example!($name, $text, "assert_eq!(literal.segments().next().unwrap().range, ", $range, ");"))]
            #[inline]
            pub fn segments(&self) -> $crate::Segments<'_> {
                $crate::Segments::of(Self::KIND, &self.text, self.parts())
            }

            /// Returns the byte offset in the literal's text of the byte `byte` of the value. For an escape, it is where the escape
            /// begins. At and beyond the value's end, it is the offset of the closing quote.
            ///
            /// This method walks over the literal. For many lookups use [`offset_map`](Self::offset_map).
            #[cfg_attr(doc, doc = $crate::common::example!($name, $text, "assert_eq!(literal.text_offset(1), ", $place, ");"))]
            #[inline]
            #[must_use]
            pub fn text_offset(&self, byte: usize) -> usize {
                self.cursor().text_offset(byte)
            }

            /// Returns the byte offset in the value of the byte of the literal's text at the offset `at`.
            ///
            /// In an escape, the result is the offset of the first byte of the escape's value. In an escaped line end, it is the
            /// offset of the byte after it. Before the text between the quotes, it is 0. After that text, it is the value's length.
            ///
            /// This method walks over the literal. For many lookups use [`offset_map`](Self::offset_map).
            #[cfg_attr(doc, doc = $crate::common::example!($name, $text, "assert_eq!(literal.value_offset(literal.text_offset(1)), 1);"))]
            #[inline]
            #[must_use]
            pub fn value_offset(&self, at: usize) -> usize {
                self.cursor().value_offset(at)
            }

            /// Returns the byte range of the literal's text that gives the byte range `bytes` of the value. If `bytes` begins or
            /// ends inside a character, the result may do so too.
            #[cfg_attr(doc, doc = $crate::common::example!($name, $text, "assert_eq!(literal.text_range(0..1), ", $range, ");"))]
            #[inline]
            #[must_use]
            pub fn text_range(&self, bytes: core::ops::Range<usize>) -> core::ops::Range<usize> {
                let (lo, hi) = $crate::rl_cursors::text_range(Self::KIND, &self.text, &self.parts(), bytes.start, bytes.end);
                lo..hi
            }

            /// Returns a map from each byte of the value to its range in the literal's text.
            #[cfg_attr(doc, doc = $crate::common::example!($name, $text, "assert_eq!(literal.offset_map().text_range(0..1), ", $range, ");"))]
            #[inline]
            #[must_use]
            pub fn offset_map(&self) -> $crate::OffsetMap {
                $crate::OffsetMap::of(self.cursor())
            }
        }
    };
}
pub(crate) use quoted_type;

#[cfg(test)]
mod tests {
    use crate::{Lit, SegmentValue};
    use std::string::String;
    use std::vec::Vec;

    /// Returns the literal's segments as texts `LO..HI VALUE`, and the offset in the literal's text of each byte of the value and
    /// of the value's end.
    fn shown(text: &str) -> (Vec<String>, Vec<usize>) {
        let show = |segments: crate::Segments, len: usize, place: &dyn Fn(usize) -> usize| {
            let line = |it: crate::Segment| match it.value {
                SegmentValue::Text(text) => std::format!("{:?} {text}", it.range),
                SegmentValue::Char(c) => std::format!("{:?} U+{:X}", it.range, c as u32),
                SegmentValue::Byte(byte) => std::format!("{:?} {byte}", it.range),
                SegmentValue::Nothing => std::format!("{:?}", it.range),
            };
            (segments.map(line).collect(), (0..=len).map(place).collect())
        };
        match &Lit::of_text(text) {
            Lit::Str(it) => show(it.segments(), it.value().len(), &|at| it.text_offset(at)),
            Lit::ByteStr(it) => show(it.segments(), it.value().len(), &|at| it.text_offset(at)),
            Lit::CStr(it) => show(it.segments(), it.value().len(), &|at| it.text_offset(at)),
            Lit::Byte(it) => show(it.segments(), 1, &|at| it.text_offset(at)),
            Lit::Char(it) => show(it.segments(), it.value().len_utf8(), &|at| {
                it.text_offset(at)
            }),
            other => panic!("{other}"),
        }
    }

    #[test]
    fn segments_and_places() {
        let rows: &[(&str, &[&str], &[usize])] = &[
            (
                r#""a\x41\n\u{1F600}é""#,
                &[
                    "1..2 a",
                    "2..6 U+41",
                    "6..8 U+A",
                    "8..17 U+1F600",
                    "17..19 é",
                ],
                &[1, 2, 6, 8, 8, 8, 8, 17, 18, 19],
            ),
            (
                "\"a\\\n   b\\\n\t\tc\"",
                &["1..2 a", "2..7", "7..8 b", "8..12", "12..13 c"],
                &[1, 7, 12, 13],
            ),
            (
                "\"a\r\nb\"",
                &["1..2 a", "2..4 U+A", "4..5 b"],
                &[1, 2, 4, 5],
            ),
            (r##"r#"a"b\n"#"##, &[r#"3..8 a"b\n"#], &[3, 4, 5, 6, 7, 8]),
            (
                r#"b"a\xFF'""#,
                &["2..3 a", "3..7 255", "7..8 '"],
                &[2, 3, 7, 8],
            ),
            (
                r#"c"\xFF\u{e9}é""#,
                &["2..6 255", "6..12 U+E9", "12..14 é"],
                &[2, 6, 6, 12, 13, 14],
            ),
            ("'é'", &["1..3 é"], &[1, 2, 3]),
            (r"'\u{1_F600}'", &["1..11 U+1F600"], &[1, 1, 1, 1, 11]),
            (r"b'\n'", &["2..4 10"], &[2, 4]),
            ("\"\"", &[], &[1]),
            ("\"\\\n\"", &["1..3"], &[3]),
        ];
        for (text, segments, places) in rows {
            let (found, at) = shown(text);
            assert_eq!(
                (found, at.as_slice()),
                (
                    segments.iter().map(|&it| String::from(it)).collect(),
                    *places
                ),
                "{text}"
            );
        }
    }

    /// Compares `value_offset` of each byte of a literal's text with a list of the expected offsets.
    #[test]
    fn from_the_text_to_the_value() {
        let rows: &[(&str, &[usize])] = &[
            (r#""a\x41bé""#, &[0, 0, 1, 1, 1, 1, 2, 3, 4, 5, 5]),
            ("\"a\\\n  b\"", &[0, 0, 1, 1, 1, 1, 1, 2, 2]),
            ("\"\\\n\"", &[0, 0, 0, 0, 0]),
            (r##"r#"ab"#"##, &[0, 0, 0, 0, 1, 2, 2, 2]),
            (r#"c"\u{e9}a""#, &[0, 0, 0, 0, 0, 0, 0, 0, 2, 3, 3]),
            (r"b'\n'", &[0, 0, 0, 0, 1, 1]),
            (r"'\u{1F600}'", &[0, 0, 0, 0, 0, 0, 0, 0, 0, 0, 4, 4]),
        ];
        for (text, values) in rows {
            let literal = Lit::of_text(*text);
            let (places, segments) = (literal.offset_map().unwrap(), || {
                literal.segments().unwrap()
            });
            let by_places: Vec<usize> =
                (0..=text.len()).map(|at| places.value_offset(at)).collect();
            assert_eq!(by_places, *values, "{text}");
            let by_walks = (0..=text.len()).map(|at| match &literal {
                Lit::Str(it) => it.value_offset(at),
                Lit::CStr(it) => it.value_offset(at),
                Lit::Byte(it) => it.value_offset(at),
                Lit::Char(it) => it.value_offset(at),
                other => panic!("{other}"),
            });
            assert_eq!(by_walks.collect::<Vec<_>>(), *values, "{text}");
            let joined: Vec<_> = segments().map(|it| it.value_range).collect();
            let ends = joined.iter().map(|it| it.end);
            let starts = core::iter::once(0).chain(ends);
            assert!(joined
                .iter()
                .map(|it| it.start)
                .eq(starts.take(joined.len())));
        }
    }
}
