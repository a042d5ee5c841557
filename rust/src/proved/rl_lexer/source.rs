// Rendered from crates/rl_lexer/src/source.rt by tools/render, which erases contracts: change that file, and render again.
//! Functions that lex the token at the start of a Rust source.

mod bad_quote;

use crate::rl_lexer::lexeme::{Form, number_or_other, rebuilt, word_or_mark};
use crate::rl_lexer::no_token::{begins_raw_identifier, opens};
use crate::rl_lexer::whitespace::{after_block, after_line, is_comment_block, is_comment_line, skip};
use bad_quote::after_bad_quote;
use crate::rl_syntax::characters::is_id_start;
use crate::rl_syntax::classes::{skip_id_continue, skip_white};
use crate::rl_syntax::lanes::{byte_before, is_ascii_id_continue, literal_free_prefix_len};
use crate::rl_syntax::lines::split_line;
#[cfg(feature = "__rendered")]
use crate::rl_syntax::lines::after_first_line_feed;
use crate::rl_syntax::text::{begins_with_char, split_ascii, split_char, strip_byte, without_first_char};

#[derive(Clone, Copy)]
pub enum SourceForm {
    Token(Form),
    RawIdentifier,
    Lifetime,
    DocComment,
    Stray,
}

#[inline(always)]
pub fn first_source_token(text: &str) -> Option<(SourceForm, &str)> {
    if let Some((form, following)) = word_or_mark(text) {
        return Some((SourceForm::Token(form), following));
    }
    rebuilt_source(text)
}

#[inline(always)]
pub(crate) fn skip_unlikely(text: &str) -> &str {
    let bytes = text.as_bytes();
    let at = literal_free_prefix_len(bytes);
    let rest = after_word(byte_before(bytes, at), &text[at..]);
    skip_all_comments(skip_white(rest))
}

#[inline(always)]
fn skip_all_comments(text: &str) -> &str {
    let mut rest = text;
    while let Some(inside) = strip_byte(rest, b'/') {
        let Some(following) = after_any_comment(inside) else {
            return rest;
        };
        rest = skip_white(following);
    }
    rest
}

#[inline(always)]
fn after_any_comment(text: &str) -> Option<&str> {
    match split_ascii(text) {
        Some((b'/', following)) => Some(after_line(following)),
        Some((b'*', following)) => after_block(following),
        _ => None,
    }
}

#[inline(always)]
fn after_word(before: u8, text: &str) -> &str {
    if is_ascii_id_continue(before) {
        skip_id_continue(text)
    } else {
        text
    }
}

#[inline(always)]
pub(crate) fn is_literal(form: Form, text: &str) -> bool {
    match form {
        Form::Literal => true,
        Form::Identifier => is_truth(text),
        Form::Delimiter(_) | Form::Mark(_) => false,
    }
}

#[inline(always)]
fn is_truth(text: &str) -> bool {
    matches!(text, "true" | "false")
}

#[inline(always)]
fn rebuilt_source(text: &str) -> Option<(SourceForm, &str)> {
    rebuilt(source_by_characters(text))
}

#[inline(never)]
fn source_by_characters(text: &str) -> Option<(SourceForm, &str)> {
    if let Some((form, following)) = other_token(text) {
        return Some((form, following));
    }
    if let Some((form, following)) = number_or_other(text) {
        return Some((SourceForm::Token(form), following));
    }
    stray(text)
}

fn stray(text: &str) -> Option<(SourceForm, &str)> {
    let (_, following) = split_char(text)?;
    if opens(text) {
        return ended(SourceForm::Token(Form::Literal), after_bad_quote(text));
    }
    Some((SourceForm::Stray, following))
}

#[inline(always)]
fn other_token(text: &str) -> Option<(SourceForm, &str)> {
    match split_ascii(text) {
        Some((b'/', following)) => ended(SourceForm::DocComment, after_doc(following)),
        Some((b'\'', following)) => ended(SourceForm::Lifetime, after_lifetime(following)),
        Some((b'r', following)) => ended(SourceForm::RawIdentifier, after_marked(following)),
        _ => None,
    }
}

#[inline(always)]
fn ended(form: SourceForm, following: Option<&str>) -> Option<(SourceForm, &str)> {
    Some((form, following?))
}

#[cfg_attr(debug_assertions, inline)]
#[cfg_attr(not(debug_assertions), inline(always))]
fn after_doc(text: &str) -> Option<&str> {
    let Some((second, following)) = split_ascii(text) else {
        return None;
    };
    if second == b'/' {
        if is_comment_line(following) {
            return None;
        }
        Some(line_end(following))
    } else if second == b'*' {
        if is_comment_block(following) {
            return None;
        }
        after_block(following)
    } else {
        None
    }
}

fn line_end(text: &str) -> &str {
    let (_, rest) = split_line(text);
    rest
}

#[cfg(feature = "__rendered")]
pub(crate) fn after_first_line(text: &str) -> Option<&str> {
    after_first_line_feed(text)
}

fn after_name(text: &str) -> Option<&str> {
    match split_char(text) {
        Some((c, following)) if is_id_start(c) => Some(skip_id_continue(following)),
        _ => None,
    }
}

fn after_marked(text: &str) -> Option<&str> {
    match split_char(text) {
        Some(('#', following)) => after_name(following),
        _ => None,
    }
}

#[inline(always)]
fn after_any_name(text: &str) -> Option<&str> {
    if begins_raw_identifier(text) {
        return after_name(without_first_char(without_first_char(text)));
    }
    after_name(text)
}

fn after_lifetime(text: &str) -> Option<&str> {
    let rest = after_any_name(text)?;
    match split_char(rest) {
        Some(('\'', _)) => None,
        _ => Some(rest),
    }
}

pub(crate) fn without_preamble(text: &str) -> &str {
    without_line(without_byte_order_mark(text))
}

pub fn without_byte_order_mark(text: &str) -> &str {
    match split_char(text) {
        Some(('\u{feff}', following)) => following,
        _ => text,
    }
}

fn without_line(text: &str) -> &str {
    let Some(second) = strip_byte(text, b'#') else {
        return text;
    };
    let Some(following) = strip_byte(second, b'!') else {
        return text;
    };
    if begins_with_char(skip(following), '[') {
        return text;
    }
    line_end(following)
}
