//! Tests of lines and columns, compared with those that are counted from the start of the text.
#![cfg(feature = "sources")]

use navyspindle::{LineColumn, LineIndex};

/// Returns the position of `at`, with columns in characters and in bytes, by counting from the start of the text.
fn counted(text: &str, at: usize) -> (LineColumn, LineColumn) {
    let before = &text[..at];
    let line = before.matches('\n').count() + 1;
    let start = before.rfind('\n').map_or(0, |at| at + 1);
    let column = before[start..].chars().count() + 1;
    let of = |column| LineColumn { line, column };
    (of(column), of(at - start + 1))
}

/// Returns the position of `at` in UTF-16 code units, by converting the text to UTF-16.
fn counted_utf16(text: &str, at: usize) -> LineColumn {
    let before: Vec<u16> = text[..at].encode_utf16().collect();
    let end = |unit: &u16| *unit == u16::from(b'\n');
    let line = before.iter().filter(|unit| end(unit)).count() + 1;
    let column = before.iter().rev().take_while(|unit| !end(unit)).count() + 1;
    LineColumn { line, column }
}

#[test]
fn a_byte_order_mark_has_no_column() {
    let index = LineIndex::new("\u{feff}ab\nc");
    for (at, line, column) in [(0, 1, 1), (2, 1, 1), (3, 1, 1), (4, 1, 2), (6, 2, 1)] {
        assert_eq!(index.line_column(at), LineColumn { line, column });
        assert_eq!(index.line_column_bytes(at), LineColumn { line, column });
    }
    assert_eq!(index.byte(LineColumn { line: 1, column: 1 }), Some(3));
}

/// The position after a line's LF is the next line's first.
#[test]
fn no_column_after_the_end_of_a_line() {
    let index = LineIndex::new("ab\nc");
    for column in [4, 5, 6] {
        let place = LineColumn { line: 1, column };
        let found = [
            LineIndex::byte,
            LineIndex::byte_of_bytes,
            LineIndex::byte_of_utf16,
        ];
        assert_eq!(found.map(|of| of(&index, place)), [None; 3]);
    }
}

#[test]
fn places_and_back() {
    let long: String = (0..900)
        .map(|n| ["a", "é", "\n", "😀", "語", "\r\n"][n * n % 6])
        .collect();
    let ascii = "ab\n\ncd".repeat(100);
    for text in [
        "",
        "\n",
        "a",
        "é\n",
        "\n\né",
        "a\r\nb",
        "a\r\r\nb",
        "\r\n\r\r\r\n\r",
        &long,
        &ascii,
    ] {
        let index = LineIndex::new(text);
        for at in (0..=text.len()).filter(|&at| text.is_char_boundary(at)) {
            let (place, in_bytes) = counted(text, at);
            assert_eq!(index.line_column(at), place, "{text:?} {at}");
            assert_eq!(index.line_column_bytes(at), in_bytes, "{text:?} {at}");
            assert_eq!(index.byte(place), Some(at), "{text:?} {at}");
            assert_eq!(index.byte_of_bytes(in_bytes), Some(at), "{text:?} {at}");
            let in_units = counted_utf16(text, at);
            assert_eq!(index.line_column_utf16(at), in_units, "{text:?} {at}");
            assert_eq!(index.byte_of_utf16(in_units), Some(at), "{text:?} {at}");
            if text[at..].starts_with('😀') {
                let (line, column) = (in_units.line, in_units.column + 1);
                let inside = index.byte_of_utf16(LineColumn { line, column });
                assert_eq!(inside, None, "{text:?} {at}");
            }
        }
        // The lines as std splits them, which has no empty line after the last LF.
        let mut lines: Vec<&str> = text.lines().collect();
        if text.is_empty() || text.ends_with('\n') {
            lines.push("");
        }
        let found: Vec<&str> = (1..).map_while(|line| index.line(line)).collect();
        assert_eq!(found, lines, "{text:?}");
        assert_eq!(index.line(0), None);
        for (line, column) in [
            (0, 1),
            (1, 0),
            (index.lines() + 1, 1),
            (1, 5000),
            (1, usize::MAX),
        ] {
            assert_eq!(index.byte(LineColumn { line, column }), None);
            assert_eq!(index.byte_of_bytes(LineColumn { line, column }), None);
            assert_eq!(index.byte_of_utf16(LineColumn { line, column }), None);
        }
    }
}
