// Rendered from crates/rl_lexer/src/lexeme.rt by tools/render, which erases contracts: change that file, and render again.
//! Functions that lex the token at the start of a text: a literal, an identifier, a delimiter or another punctuation
//! character.

mod number;
mod quotes;
mod suffix;

use number::{after_decimal, after_digits, ends_number};
pub(crate) use quotes::begins_hashed_quote;
use quotes::{after_character, after_quoted, after_raw_literal};
use crate::rl_syntax::characters::is_id_start;
use crate::rl_syntax::classes::skip_id_continue;
use crate::rl_syntax::lanes::has_bit;
use crate::rl_syntax::text::{begins_with_char, split_ascii, split_char, strip_byte, without_first_char};
pub(crate) use suffix::after_suffix;

#[derive(Clone, Copy, PartialEq, Eq, Debug)]
pub enum Form {
    Literal,
    Identifier,
    Delimiter(char),
    Mark(char),
}

#[cfg_attr(debug_assertions, inline)]
#[cfg_attr(not(debug_assertions), inline(always))]
pub(crate) fn first_lexeme(text: &str) -> Option<(Form, &str)> {
    if let Some(following) = after_number(text) {
        return Some((Form::Literal, following));
    }
    if strip_byte(text, b'"').is_none() {
        if let Some((form, following)) = word_or_mark(text) {
            return Some((form, following));
        }
    }
    rebuilt_lexeme(text)
}

#[inline(always)]
pub(crate) fn number_or_other(text: &str) -> Option<(Form, &str)> {
    if let Some(following) = after_number(text) {
        return Some((Form::Literal, following));
    }
    rebuilt_lexeme(text)
}

#[inline(always)]
fn after_number(text: &str) -> Option<&str> {
    match split_ascii(text) {
        Some((byte, following)) if (byte as char).is_ascii_digit() => Some(after_digit(following)),
        _ => None,
    }
}

#[inline(always)]
fn rebuilt_lexeme(text: &str) -> Option<(Form, &str)> {
    rebuilt(lexeme_but_number(text))
}

#[inline(never)]
fn lexeme_but_number(text: &str) -> Option<(Form, &str)> {
    let Some((byte, following)) = split_ascii(text) else {
        return rebuilt(wide_identifier(text));
    };
    match byte {
        b'"' => quoted_literal(following),
        b'\'' => character_literal(following),
        b'/' => rebuilt(after_slash(following)),
        _ if is_always_token(byte) => Some((mark_form(byte as char), following)),
        _ if is_id_start(byte as char) => rebuilt(literal_or_identifier(byte as char, following)),
        _ => None,
    }
}

#[inline(always)]
pub(crate) fn rebuilt<F>(found: Option<(F, &str)>) -> Option<(F, &str)> {
    match found {
        Some((form, following)) => Some((form, following)),
        None => None,
    }
}

#[inline(never)]
fn wide_identifier(text: &str) -> Option<(Form, &str)> {
    let (c, following) = split_char(text)?;
    if !is_id_start(c) {
        return None;
    }
    Some((Form::Identifier, skip_id_continue(following)))
}

#[inline(never)]
fn literal_or_identifier(letter: char, text: &str) -> Option<(Form, &str)> {
    match letter {
        'b' | 'c' if begins_with_char(text, '"') => quoted_literal(without_first_char(text)),
        'b' if begins_with_char(text, '\'') => character_literal(without_first_char(text)),
        'b' | 'c' if begins_raw_literal(text) => raw_literal(without_first_char(text)),
        'r' if begins_hashed_quote(text) => raw_literal(text),
        'r' if begins_marked_identifier(text) => None,
        _ => Some((Form::Identifier, skip_id_continue(text))),
    }
}

#[cfg_attr(debug_assertions, inline)]
#[cfg_attr(not(debug_assertions), inline(always))]
pub(crate) fn word_or_mark(text: &str) -> Option<(Form, &str)> {
    let (byte, following) = split_ascii(text)?;
    match lead_of(byte) {
        Lead::Word => Some((Form::Identifier, skip_id_continue(following))),
        Lead::Mark => Some((mark_form(byte as char), following)),
        Lead::Prefix if continues_word(following) => {
            Some((Form::Identifier, skip_id_continue(following)))
        }
        Lead::Slash if begins_other_than_comment(following) => Some((Form::Mark('/'), following)),
        _ => None,
    }
}

#[derive(Clone, Copy)]
enum Lead {
    Word,
    Mark,
    Prefix,
    Slash,
    Other,
}

#[cfg_attr(debug_assertions, inline)]
#[cfg_attr(not(debug_assertions), inline(always))]
fn lead_of(byte: u8) -> Lead {
    if byte < 64 {
        if has_bit(LOW_MARKS, byte) {
            return Lead::Mark;
        }
        if byte == b'/' {
            return Lead::Slash;
        }
        return Lead::Other;
    }
    if has_bit(0x07fb_fff2_87ff_fffe, byte - 64) {
        return Lead::Word;
    }
    if has_bit(HIGH_MARKS, byte - 64) {
        return Lead::Mark;
    }
    if matches!(byte, b'b' | b'c' | b'r') {
        return Lead::Prefix;
    }
    Lead::Other
}

#[inline(always)]
fn continues_word(following: &str) -> bool {
    match split_ascii(following) {
        Some((next, _)) => next >= 64 && next != b'r',
        None => false,
    }
}

#[inline(always)]
fn begins_other_than_comment(following: &str) -> bool {
    match split_ascii(following) {
        Some((next, _)) => next != b'/' && next != b'*',
        None => false,
    }
}

const LOW_MARKS: u64 = 0xfc00_7f7a_0000_0000;
const HIGH_MARKS: u64 = 0x7800_0000_6800_0001;

#[inline(always)]
fn is_always_token(byte: u8) -> bool {
    if byte < 64 {
        has_bit(LOW_MARKS, byte)
    } else {
        has_bit(HIGH_MARKS, byte - 64)
    }
}

#[inline(always)]
fn mark_form(c: char) -> Form {
    if is_delimiter(c) {
        Form::Delimiter(c)
    } else {
        Form::Mark(c)
    }
}

#[inline(always)]
fn quoted_literal(text: &str) -> Option<(Form, &str)> {
    Some((Form::Literal, after_quoted(text)?))
}

#[inline(always)]
fn character_literal(text: &str) -> Option<(Form, &str)> {
    Some((Form::Literal, after_character(text)?))
}

#[inline(always)]
fn raw_literal(text: &str) -> Option<(Form, &str)> {
    Some((Form::Literal, after_raw_literal(text)?))
}

#[inline(never)]
fn after_slash(text: &str) -> Option<(Form, &str)> {
    match split_char(text) {
        Some(('/' | '*', _)) => None,
        _ => Some((Form::Mark('/'), text)),
    }
}

#[inline(always)]
fn after_digit(text: &str) -> &str {
    let rest = after_digits(text);
    if ends_number(rest) {
        return rest;
    }
    after_decimal(rest)
}

fn begins_raw_literal(text: &str) -> bool {
    begins_with_char(text, 'r') && begins_hashed_quote(without_first_char(text))
}

pub(crate) fn begins_marked_identifier(text: &str) -> bool {
    match split_char(text) {
        Some(('#', following)) => match split_char(following) {
            Some((next, _)) => is_id_start(next),
            None => false,
        },
        _ => false,
    }
}

pub fn is_opener(c: char) -> bool {
    matches!(c, '(' | '[' | '{')
}

fn is_delimiter(c: char) -> bool {
    matches!(c, '(' | ')' | '[' | ']' | '{' | '}')
}
