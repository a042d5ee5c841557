//! Hints for the errors of settings, for texts with what other formats of configuration files allow.

use crate::error::{Part, SyntaxErrorKind};
use core::str::Chars;

/// The characters that may separate two settings.
#[derive(Clone, Copy, PartialEq)]
pub(crate) enum Separators {
    /// Commas.
    Commas,
    /// Commas and line ends. Names may have dots.
    CommasAndLines,
}

const COMMENT: &str = "a comment begins with `//`";
pub(crate) const STRING: &str = "a string has double quotes";

/// Returns a hint for the error at the byte offset `at` of a text of settings.
#[cold]
#[inline]
pub(crate) fn help_of(
    kind: SyntaxErrorKind,
    text: &str,
    at: usize,
    separators: Separators,
) -> Option<&'static str> {
    let (before, rest) = text.split_at(at);
    if is_comment_line(before, rest) {
        return Some(COMMENT);
    }
    match kind {
        SyntaxErrorKind::Expected(part) => match part {
            Part::Name => of_name(rest, separators),
            Part::Equals => of_equals(before, rest, separators),
            Part::Literal => of_literal(rest),
            Part::Comma => of_comma(before, rest, separators),
        },
        SyntaxErrorKind::StrayCharacter => match rest.chars().next()? {
            '‘' | '’' | '“' | '”' | '„' | '«' | '»' | '`' | '\\' => Some(STRING),
            _ => None,
        },
        SyntaxErrorKind::UnclosedQuote if rest.starts_with('\'') => Some(STRING),
        SyntaxErrorKind::DocComment if rest.starts_with("///") => {
            Some("a comment begins with `//`, not with `///`")
        }
        _ => None,
    }
}

/// Whether the line begins with `#` or `;`, as comments of other languages do. The error may be inside such a comment.
#[inline]
fn is_comment_line(before: &str, rest: &str) -> bool {
    let line = before.rsplit('\n').next().unwrap_or(before).trim_start();
    let first = if line.is_empty() { rest } else { line };
    first.starts_with(['#', ';'])
}

#[inline]
fn of_name(rest: &str, separators: Separators) -> Option<&'static str> {
    match (rest.chars().next()?, separators) {
        ('[', Separators::CommasAndLines) => {
            Some("there are no sections: write `section.name = ..`")
        }
        ('[', Separators::Commas) => Some("there are no sections"),
        ('"' | '\'', _) => Some("a name has no quotes"),
        ('0'..='9', _) => Some("a name begins with a letter or `_`"),
        ('#', _) => Some(COMMENT),
        _ => None,
    }
}

#[inline]
fn of_equals(before: &str, rest: &str, separators: Separators) -> Option<&'static str> {
    let is_inside =
        before.ends_with(is_part_of_word) && after_first(rest).starts_with(is_part_of_word);
    match (rest.chars().next()?, separators) {
        ('-', _) if is_inside => Some("a name has no `-`: use `_`"),
        ('.', Separators::Commas) if is_inside => Some("a name has no `.`: use `_`"),
        ('#', _) => Some(COMMENT),
        _ => None,
    }
}

#[inline]
fn of_literal(rest: &str) -> Option<&'static str> {
    match rest.chars().next()? {
        '[' => Some("there are no arrays"),
        '{' => Some("there are no tables"),
        '+' => Some("a number has no `+`"),
        // After a minus, each number up to 128 bits is a literal.
        '-' if after_first(rest)
            .trim_start()
            .starts_with(|c: char| c.is_ascii_digit()) =>
        {
            Some("an integer has at most 128 bits")
        }
        '.' => Some("a float begins with a digit, as in `0.5`"),
        '#' => Some(STRING),
        c if c.is_alphabetic() || c == '_' => {
            let end = rest.find(|c| !is_part_of_word(c)).unwrap_or(rest.len());
            let word = &rest[..end];
            let is_bool = ["true", "false"]
                .iter()
                .any(|it| word.eq_ignore_ascii_case(it));
            Some(if is_bool {
                "write `true` or `false`"
            } else {
                STRING
            })
        }
        _ => None,
    }
}

#[inline]
fn of_comma(before: &str, rest: &str, separators: Separators) -> Option<&'static str> {
    let first = rest.chars().next()?;
    if first == '#' {
        return Some(COMMENT);
    }
    let is_apart = before.ends_with(char::is_whitespace) || before.ends_with("*/");
    if !is_apart && first != ';' {
        // A version such as `1.2.3`, or a date such as `2024-01-01`.
        return Some(STRING);
    }
    match separators {
        Separators::CommasAndLines => Some("a comma or a line end is between two settings"),
        Separators::Commas => Some("a comma is between two settings"),
    }
}

/// Returns the text after its first character.
#[inline]
fn after_first(text: &str) -> &str {
    let mut chars: Chars<'_> = text.chars();
    chars.next();
    chars.as_str()
}

/// Whether the character may be in a name.
#[inline]
fn is_part_of_word(c: char) -> bool {
    c.is_alphanumeric() || c == '_'
}
