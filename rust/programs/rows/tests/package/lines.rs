//! Compares the conversion of byte offsets to lines and columns, and back, with counts of line ends and characters.

use navyspindle::{LineColumn, LineIndex};

/// Checks the line and column of each character and of the text's end, in characters and in bytes. A byte order mark at the start
/// has no column.
pub fn check(text: &str) {
    let index = LineIndex::new(text);
    let read = text.strip_prefix('\u{feff}').unwrap_or(text);
    let front = text.len() - read.len();
    let (mut line, mut line_start) = (1, 0);
    assert_eq!(index.lines(), read.matches('\n').count() + 1, "{text:?}");
    let characters = read.char_indices().map(|(at, c)| (at, Some(c)));
    for (at, c) in characters.chain([(read.len(), None)]) {
        let column = read[line_start..at].chars().count() + 1;
        let place = LineColumn { line, column };
        let column = at - line_start + 1;
        let in_bytes = LineColumn { line, column };
        let len = c.map_or(2, char::len_utf8);
        for byte in front + at..front + at + len {
            assert_eq!(index.line_column(byte), place, "{text:?} {byte}");
            assert_eq!(index.line_column_bytes(byte), in_bytes, "{text:?} {byte}");
        }
        assert_eq!(index.byte(place), Some(front + at), "{text:?} {place}");
        assert_eq!(
            index.byte_of_bytes(in_bytes),
            Some(front + at),
            "{text:?} {place}"
        );
        for inside in 1..len {
            let column = in_bytes.column + inside;
            let place = LineColumn { line, column };
            assert_eq!(index.byte_of_bytes(place), None, "{text:?} {place}");
        }
        if matches!(c, None | Some('\n')) {
            // After the line's last position there are no more columns.
            for past in 1..4 {
                let place = LineColumn {
                    line,
                    column: place.column + past,
                };
                assert_eq!(index.byte(place), None, "{text:?} {place}");
                let place = LineColumn {
                    line,
                    column: in_bytes.column + past,
                };
                assert_eq!(index.byte_of_bytes(place), None, "{text:?} {place}");
            }
            (line, line_start) = (line + 1, at + 1);
        }
    }
    for byte in 0..front {
        assert_eq!(index.line_column(byte), LineColumn { line: 1, column: 1 });
    }
    for (line, column) in [(0, 1), (1, 0), (index.lines() + 1, 1)] {
        let place = LineColumn { line, column };
        assert_eq!(
            (index.byte(place), index.byte_of_bytes(place)),
            (None, None)
        );
    }
}
