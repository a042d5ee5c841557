// Rendered from crates/rl_cursors/src/lines.rt by tools/render, which erases contracts: change that file, and render again.
//! Finds the position where lexing resumes after an error.

use crate::rl_syntax::text::{begins, begins_with_char, split_char};

pub(crate) fn lines_after(text: &str) -> Option<&str> {
    if begins(text, "/*") {
        return None;
    }
    let (_, following) = split_char(text)?;
    from_line_end(begins_character(text), following)
}

fn from_line_end(joins: bool, text: &str) -> Option<&str> {
    let mut rest = text;
    let mut is_escaped = false;
    while let Some((c, following)) = split_char(rest) {
        if ends_line(c, is_escaped) {
            return Some(rest);
        }
        is_escaped = escapes_next(joins, c, is_escaped);
        rest = following;
    }
    None
}

fn ends_line(c: char, is_escaped: bool) -> bool {
    c == '\n' && !is_escaped
}

fn escapes_next(joins: bool, c: char, is_escaped: bool) -> bool {
    joins && c == '\\' && !is_escaped
}

fn begins_character(text: &str) -> bool {
    match split_char(text) {
        Some(('\'', _)) => true,
        Some(('b', following)) => begins_with_char(following, '\''),
        _ => false,
    }
}
