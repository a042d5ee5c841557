// Rendered from crates/rl_scan/src/position.rt by tools/render, which erases contracts: change that file, and render again.
//! Positions in a source: lines and columns.

#[derive(Clone, Copy)]
pub(crate) struct Position {
    pub at: usize,
    pub line: usize,
    pub line_at: usize,
    pub column: usize,
}

fn count_line_feeds(text: &str) -> usize {
    let mut count = 0_usize;
    for chunk in text.as_bytes().chunks(192) {
        let mut few = 0_u8;
        for byte in chunk {
            few = few.wrapping_add(u8::from(*byte == b'\n'));
        }
        count = count.saturating_add(usize::from(few));
    }
    count
}

impl Position {
    pub(crate) fn first(source: &str) -> Position {
        let mark = if source.starts_with('\u{feff}') { 3 } else { 0 };
        Position {
            at: mark,
            line: 1,
            line_at: mark,
            column: 1,
        }
    }

    pub(crate) fn moved(self, source: &str, at: usize) -> Position {
        let first = Position::first(source);
        let from = if self.at <= at { self } else { first };
        let passed = source.get(from.at..at).unwrap_or("");
        match passed.rsplit_once('\n') {
            Some((_, inside)) => Position {
                at,
                line: from.line.saturating_add(count_line_feeds(passed)),
                line_at: at.saturating_sub(inside.len()),
                column: inside.chars().count().saturating_add(1),
            },
            None => Position {
                at,
                column: from.column.saturating_add(passed.chars().count()),
                ..from
            },
        }
    }

    pub(crate) fn byte_column(self) -> usize {
        self.at.saturating_sub(self.line_at).saturating_add(1)
    }
}
