// Rendered from crates/rl_lexer/src/source/bad_quote.rt by tools/render, which erases contracts: change that file, and render again.
//! Functions that find the end of invalid quoted literals, such as `''` and `'ab'`. Where an invalid quoted literal
//! begins, neither a valid character literal nor a lifetime begins. The source contains the end of the invalid literal.

use super::after_any_name;
use crate::rl_lexer::lexeme::after_suffix;
use crate::rl_syntax::characters::is_id_start;
use crate::rl_syntax::classes::skip_id_continue;
use crate::rl_syntax::text::{begins_with_char, split_ascii, split_char, without_first_char};

#[inline(never)]
pub(crate) fn after_bad_quote(text: &str) -> Option<&str> {
    match split_char(text) {
        Some(('\'', following)) => after_bare(following),
        Some(('b', following)) if begins_with_char(following, '\'') => {
            after_other(without_first_char(following))
        }
        _ => None,
    }
}

fn after_bare(text: &str) -> Option<&str> {
    let (c, following) = split_char(text)?;
    if c.is_ascii_digit() {
        return Some(past_closing(skip_id_continue(following)));
    }
    if is_id_start(c) {
        return after_closing(after_any_name(text)?);
    }
    after_other(text)
}

fn after_other(text: &str) -> Option<&str> {
    if begins_with_char(text, '\\') {
        return None;
    }
    let rest = after_next_quote(text)?;
    Some(after_suffix(rest))
}

fn after_next_quote(text: &str) -> Option<&str> {
    let mut rest = text;
    while let Some((c, following)) = split_char(rest) {
        if c == '\'' {
            return Some(following);
        }
        rest = after_part(c, following)?;
    }
    None
}

fn after_part(c: char, following: &str) -> Option<&str> {
    if c == '\\' {
        let (_, more) = split_char(following)?;
        return Some(more);
    }
    if c == '/' || (c == '\n' && !begins_with_char(following, '\'')) {
        return None;
    }
    Some(following)
}

fn after_closing(text: &str) -> Option<&str> {
    match split_char(text) {
        Some(('\'', following)) => Some(following),
        _ => None,
    }
}

fn past_closing(text: &str) -> &str {
    match split_char(text) {
        Some(('\'', following)) => following,
        _ => text,
    }
}
