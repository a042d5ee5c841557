// Rendered from crates/rl_style/src/restylable.rt by tools/render, which erases contracts: change that file, and render again.
//! The literals of a source that a style may rewrite.

use crate::rl_style::calls::{Calls, advance_calls, is_in_call};
use crate::rl_lexer::{Form, LexError, SourceForm, SourceToken, Sources};
use crate::rl_syntax::text::{begins_with_char, strip_byte};

#[derive(Clone, Copy)]
pub(crate) enum Last {
    Other,
    Dot,
    Dots,
    Opening,
    Offset,
}

#[derive(Clone, Copy)]
pub struct Restylable<'t> {
    pub token: SourceToken<'t>,
    pub is_field: bool,
    pub in_macro: bool,
}

pub struct Restylables<'t> {
    tokens: Sources<'t>,
    last: Last,
    end: usize,
    calls: Calls<'t>,
    has_stray: bool,
}

#[inline]
fn one_more(last: Last, is_joined: bool) -> Last {
    match last {
        Last::Dot | Last::Dots if is_joined => Last::Dots,
        _ => Last::Dot,
    }
}

#[inline]
fn names_offset(token: SourceToken<'_>) -> bool {
    matches!(token.form, SourceForm::Token(Form::Identifier)) && token.text == "offset_of"
}

#[inline]
fn ends_offset(token: SourceToken<'_>) -> bool {
    matches!(
        token.form,
        SourceForm::Token(Form::Mark(';') | Form::Delimiter('{' | '}'))
    )
}

#[inline]
fn last_after(last: Last, end: usize, token: SourceToken<'_>) -> Last {
    match last {
        Last::Offset if !ends_offset(token) => Last::Offset,
        _ if names_offset(token) => Last::Offset,
        _ => next_after(last, end, token),
    }
}

#[inline]
fn next_after(last: Last, end: usize, token: SourceToken<'_>) -> Last {
    match token.form {
        SourceForm::Token(Form::Mark('.')) => one_more(last, token.lo == end),
        SourceForm::Token(Form::Mark(',') | Form::Delimiter('{' | ']')) | SourceForm::DocComment =>
            Last::Opening,
        _ => Last::Other,
    }
}

#[inline]
fn stray_after(before: bool, token: SourceToken<'_>) -> bool {
    match token.form {
        SourceForm::Stray => true,
        _ => before,
    }
}

#[inline]
fn begins_one_colon(text: &str) -> bool {
    match strip_byte(text, b':') {
        Some(following) => !begins_with_char(following, ':'),
        None => false,
    }
}

#[inline]
fn names_field(last: Last, rest: &str) -> bool {
    match last {
        Last::Dot | Last::Offset => true,
        Last::Opening => begins_one_colon(rest),
        Last::Other | Last::Dots => false,
    }
}

#[inline]
fn is_field(last: Last, token: SourceToken<'_>, rest: &str) -> bool {
    matches!(token.text.as_bytes(), [b'0'..=b'9', ..]) && names_field(last, rest)
}

impl<'t> Restylables<'t> {
    #[inline]
    pub fn new(text: &'t str) -> Restylables<'t> {
        Restylables {
            tokens: Sources::new(text),
            last: Last::Other,
            end: 0,
            calls: Calls::Outside,
            has_stray: false,
        }
    }

    #[inline]
    pub fn next(&mut self) -> Option<Restylable<'t>> {
        let (mut last, mut end, mut calls) = (self.last, self.end, self.calls);
        let mut has_stray = self.has_stray;
        while let Some(token) = self.tokens.next() {
            let (before, around) = (last, calls);
            last = last_after(before, end, token);
            end = token.hi;
            calls = advance_calls(around, token);
            has_stray = stray_after(has_stray, token);
            if token.is_literal() {
                self.last = last;
                self.end = end;
                self.calls = calls;
                self.has_stray = has_stray;
                return Some(Restylable {
                    token,
                    is_field: is_field(before, token, self.tokens.rest()),
                    in_macro: is_in_call(around),
                });
            }
        }
        self.last = last;
        self.end = end;
        self.calls = calls;
        self.has_stray = has_stray;
        None
    }

    #[cfg(feature = "__rendered")]
    #[inline]
    pub fn has_stray(&self) -> bool {
        self.has_stray
    }

    #[inline]
    pub fn error(&self) -> Option<LexError> {
        self.tokens.error()
    }
}
