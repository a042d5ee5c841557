//! Conversion of byte offsets to lines and columns, and back.

use crate::rl_syntax::lines::after_first_line_feed;
use alloc::vec::Vec;

/// A position in a text as compilers print it: a line and a column, both from 1.
///
/// ```
/// use navyspindle::{LineColumn, LineIndex};
///
/// let place = LineIndex::new("a\nbc").line_column(3);
/// assert_eq!(place, LineColumn { line: 2, column: 2 });
/// assert_eq!(place.to_string(), "2:2");
/// ```
#[derive(Clone, Copy, Debug, PartialEq, Eq, PartialOrd, Ord, Hash)]
pub struct LineColumn {
    /// The number of the line, from 1.
    pub line: usize,
    /// The number of the column in the line, from 1.
    pub column: usize,
}

/// Prints the line and the column with a colon between them: `3:14`.
impl core::fmt::Display for LineColumn {
    fn fmt(&self, f: &mut core::fmt::Formatter<'_>) -> core::fmt::Result {
        write!(f, "{}:{}", self.line, self.column)
    }
}

/// The number of bytes between two entries of the table that counts characters.
const STEP: usize = 256;

/// Converts byte offsets of a text to lines and columns, and lines and columns to byte offsets. It is built once for a text.
///
/// A line ends after its LF. Columns count characters, as rustc's do, or bytes. A byte order mark at the start of the text has no
/// column. Its bytes have the position of the character after it. Building the index takes time that grows with the text. The time
/// of a lookup grows with the logarithm of the number of lines.
///
/// ```
/// use navyspindle::{LineColumn, LineIndex};
///
/// let text = "let a = 1;\nlet é = '\\q';\n";
/// let index = LineIndex::new(text);
/// let at = text.find(r"\q").unwrap();
/// assert_eq!(index.line_column(at), LineColumn { line: 2, column: 10 });
/// assert_eq!(index.line_column_bytes(at), LineColumn { line: 2, column: 11 });
/// assert_eq!(index.byte(LineColumn { line: 2, column: 10 }), Some(at));
/// ```
#[derive(Clone, Debug)]
pub struct LineIndex<'t> {
    text: &'t str,
    // The byte offset at which each line begins.
    starts: Vec<usize>,
    // For each multiple of `STEP`, the number of characters that begin before that byte offset. The table is empty if the whole
    // text is ASCII.
    characters: Vec<usize>,
}

fn begins_character(byte: u8) -> bool {
    byte & 0xC0 != 0x80
}

/// Returns the number of characters that begin in `bytes`.
fn count(bytes: &[u8]) -> usize {
    bytes.iter().filter(|&&byte| begins_character(byte)).count()
}

impl<'t> LineIndex<'t> {
    /// Creates the index of a text.
    ///
    /// ```
    /// assert_eq!(navyspindle::LineIndex::new("a\nb").lines(), 2);
    /// ```
    #[must_use]
    pub fn new(text: &'t str) -> Self {
        let first = text.strip_prefix('\u{feff}').unwrap_or(text);
        let lines = core::iter::successors(Some(first), |line| after_first_line_feed(line));
        let starts = lines.map(|line| text.len() - line.len()).collect();
        let mut characters = Vec::new();
        if !text.is_ascii() {
            let mut before = 0;
            for bytes in text.as_bytes().chunks(STEP) {
                characters.push(before);
                before += count(bytes);
            }
            // One more entry, for the text's end.
            characters.push(before);
        }
        LineIndex {
            text,
            starts,
            characters,
        }
    }

    /// Returns the number of lines, which is one more than the number of LFs.
    ///
    /// ```
    /// assert_eq!(navyspindle::LineIndex::new("").lines(), 1);
    /// ```
    #[must_use]
    pub fn lines(&self) -> usize {
        self.starts.len()
    }

    /// Returns the line and the column, in characters, of the character at the byte offset `at`. An offset beyond the text's end
    /// counts as the end. An offset inside a character counts as the character's first byte.
    ///
    /// ```
    /// use navyspindle::{LineColumn, LineIndex};
    ///
    /// let index = LineIndex::new("é\nb");
    /// assert_eq!(index.line_column(2), LineColumn { line: 1, column: 2 });
    /// assert_eq!(index.line_column(99), LineColumn { line: 2, column: 2 });
    /// ```
    #[doc(alias = "line_col")]
    #[must_use]
    pub fn line_column(&self, at: usize) -> LineColumn {
        let (line, start, at) = self.line_of(at);
        let column = self.characters_before(at) - self.characters_before(start) + 1;
        LineColumn { line, column }
    }

    /// Returns the line and the column, in bytes, of the character at the byte offset `at`. An offset beyond the text's end counts
    /// as the end. An offset inside a character counts as the character's first byte.
    ///
    /// ```
    /// use navyspindle::{LineColumn, LineIndex};
    ///
    /// assert_eq!(LineIndex::new("é\nb").line_column_bytes(2), LineColumn { line: 1, column: 3 });
    /// ```
    #[must_use]
    pub fn line_column_bytes(&self, at: usize) -> LineColumn {
        let (line, start, at) = self.line_of(at);
        let column = at - start + 1;
        LineColumn { line, column }
    }

    /// Returns the line and the column, in UTF-16 code units, of the character at the byte offset `at`.
    ///
    /// Editor protocols use these columns, but count lines and columns from 0. An offset beyond the text's end counts as the end.
    /// The time grows with the length of the line.
    ///
    /// ```
    /// use navyspindle::{LineColumn, LineIndex};
    ///
    /// assert_eq!(LineIndex::new("😀b").line_column_utf16(4), LineColumn { line: 1, column: 3 });
    /// ```
    #[must_use]
    pub fn line_column_utf16(&self, at: usize) -> LineColumn {
        let (line, start, at) = self.line_of(at);
        let units = self.text[start..at].chars().map(char::len_utf16);
        let column = units.sum::<usize>() + 1;
        LineColumn { line, column }
    }

    /// Returns the text of a line without the LF or CR LF that ends it, or `None` if the text has no line of this number.
    ///
    /// ```
    /// use navyspindle::LineIndex;
    ///
    /// let index = LineIndex::new("a\r\nb");
    /// assert_eq!((index.line(1), index.line(2), index.line(3)), (Some("a"), Some("b"), None));
    /// ```
    #[must_use]
    pub fn line(&self, line: usize) -> Option<&'t str> {
        let start = *self.starts.get(line.checked_sub(1)?)?;
        let Some(&end) = self.starts.get(line) else {
            return Some(&self.text[start..]);
        };
        let text = &self.text[start..end - 1];
        Some(text.strip_suffix('\r').unwrap_or(text))
    }

    /// Returns the byte offset of a line and a column in characters, or `None` if the text has no such position. The last position
    /// of a line is its LF. The last position of the last line is the text's end.
    ///
    /// ```
    /// use navyspindle::{LineColumn, LineIndex};
    ///
    /// let index = LineIndex::new("é\nb");
    /// assert_eq!(index.byte(LineColumn { line: 1, column: 2 }), Some(2));
    /// assert_eq!(index.byte(LineColumn { line: 1, column: 3 }), None);
    /// assert_eq!(index.byte(LineColumn { line: 2, column: 2 }), Some(4));
    /// ```
    #[must_use]
    pub fn byte(&self, place: LineColumn) -> Option<usize> {
        let (start, end) = self.bounds(place.line)?;
        let characters = self
            .characters_before(start)
            .checked_add(place.column.checked_sub(1)?)?;
        let at = self.byte_after(characters)?;
        (at < end).then_some(at)
    }

    /// Returns the byte offset of a line and a column in bytes, or `None` if no character begins at that position.
    ///
    /// ```
    /// use navyspindle::{LineColumn, LineIndex};
    ///
    /// let index = LineIndex::new("é\nb");
    /// assert_eq!(index.byte_of_bytes(LineColumn { line: 1, column: 3 }), Some(2));
    /// assert_eq!(index.byte_of_bytes(LineColumn { line: 1, column: 2 }), None);
    /// ```
    #[must_use]
    pub fn byte_of_bytes(&self, place: LineColumn) -> Option<usize> {
        let (start, end) = self.bounds(place.line)?;
        let at = start.checked_add(place.column.checked_sub(1)?)?;
        (at < end && self.text.is_char_boundary(at)).then_some(at)
    }

    /// Returns the byte offset of a line and a column in UTF-16 code units, or `None` if no character begins at that position. The
    /// time grows with the length of the line.
    ///
    /// ```
    /// use navyspindle::{LineColumn, LineIndex};
    ///
    /// let index = LineIndex::new("😀b");
    /// assert_eq!(index.byte_of_utf16(LineColumn { line: 1, column: 3 }), Some(4));
    /// assert_eq!(index.byte_of_utf16(LineColumn { line: 1, column: 2 }), None);
    /// ```
    #[must_use]
    pub fn byte_of_utf16(&self, place: LineColumn) -> Option<usize> {
        let (start, end) = self.bounds(place.line)?;
        let mut left = place.column.checked_sub(1)?;
        let mut at = start;
        for c in self.text[start..].chars() {
            if left == 0 || at >= end {
                break;
            }
            left = left.checked_sub(c.len_utf16())?;
            at += c.len_utf8();
        }
        (left == 0 && at < end).then_some(at)
    }

    /// Returns the line of the byte offset `at`, counted from 1, the byte offset at which that line begins, and the byte offset at
    /// which the character at `at` begins.
    fn line_of(&self, at: usize) -> (usize, usize, usize) {
        let mut at = at.clamp(self.starts[0], self.text.len());
        while !self.text.is_char_boundary(at) {
            at -= 1;
        }
        let line = self.starts.partition_point(|&start| start <= at);
        (line, self.starts[line - 1], at)
    }

    /// Returns the byte offset at which a line begins, and the first offset after the line's last position. `None` if there is no
    /// line of this number.
    fn bounds(&self, line: usize) -> Option<(usize, usize)> {
        let start = *self.starts.get(line.checked_sub(1)?)?;
        // The last line has one more position, which is the text's end.
        let end = self.starts.get(line).copied();
        Some((start, end.unwrap_or(self.text.len() + 1)))
    }

    fn characters_before(&self, at: usize) -> usize {
        if self.characters.is_empty() {
            return at;
        }
        let step = at / STEP;
        self.characters[step] + count(&self.text.as_bytes()[step * STEP..at])
    }

    /// Returns the byte offset after the first `characters` characters of the text, or `None` if the text has fewer.
    fn byte_after(&self, characters: usize) -> Option<usize> {
        if self.characters.is_empty() {
            return (characters <= self.text.len()).then_some(characters);
        }
        let step = self
            .characters
            .partition_point(|&before| before <= characters)
            - 1;
        let from = (step * STEP).min(self.text.len());
        let mut left = characters - self.characters[step];
        for (place, &byte) in self.text.as_bytes()[from..].iter().enumerate() {
            if begins_character(byte) {
                if left == 0 {
                    return Some(from + place);
                }
                left -= 1;
            }
        }
        (left == 0).then_some(self.text.len())
    }
}
