// Rendered from crates/rl_cursors/src/next_literals.rt by tools/render, which erases contracts: change that file, and render again.
//! Functions that return the next literal of a list of literals, or the list's error.

use crate::rl_lenient::found::parse_bool_literal;
use crate::rl_lenient::{Found, parse_literal, parse_with_added_minus};
use crate::rl_lexer::{Form, LexKind, Lexeme, Tokens};

#[derive(Clone, Copy)]
pub struct NextLiteral<'t> {
    pub token: Lexeme<'t>,
    pub minus_at: Option<usize>,
    pub found: Option<Found>,
}

#[derive(Clone, Copy, PartialEq, Eq, Debug)]
pub enum RejectionKind {
    Lex(LexKind),
    Group,
    UnmatchedClose,
    NotALiteral,
}

#[derive(Clone, Copy, PartialEq, Eq, Debug)]
pub struct Rejection {
    pub kind: RejectionKind,
    pub at: usize,
}

#[derive(Clone, Copy)]
pub enum ListStep<'t> {
    End,
    Literal(NextLiteral<'t>),
    Rejected(Rejection),
}

#[inline(always)]
fn alone<'t>(token: Lexeme<'t>, found: Option<Found>) -> NextLiteral<'t> {
    NextLiteral {
        token,
        minus_at: None,
        found,
    }
}

#[cfg_attr(debug_assertions, inline)]
#[cfg_attr(not(debug_assertions), inline(always))]
fn take_literal<'t>(tokens: &mut Tokens<'t>) -> Option<NextLiteral<'t>> {
    let token = tokens.next()?;
    match token.form {
        Form::Literal => Some(alone(token, parse_literal(token.text))),
        Form::Identifier => {
            let found = parse_bool_literal(token.text)?;
            Some(alone(token, Some(found)))
        }
        Form::Mark('-') => {
            let number = tokens.next()?;
            let Form::Literal = number.form else {
                return None;
            };
            let found = parse_with_added_minus(number.text)?;
            Some(NextLiteral {
                token: number,
                minus_at: Some(token.lo),
                found: Some(found),
            })
        }
        _ => None,
    }
}

#[inline(always)]
pub fn next_literal<'t>(tokens: &mut Tokens<'t>) -> Option<NextLiteral<'t>> {
    let mut ahead = tokens.fork();
    let literal = take_literal(&mut ahead)?;
    *tokens = ahead;
    Some(literal)
}

fn token_rejection(form: Form) -> RejectionKind {
    match form {
        Form::Delimiter('(' | '[' | '{') => RejectionKind::Group,
        Form::Delimiter(_) => RejectionKind::UnmatchedClose,
        _ => RejectionKind::NotALiteral,
    }
}

#[inline(never)]
fn rejection_at(tokens: &Tokens<'_>) -> Rejection {
    if let Some(error) = tokens.error() {
        return Rejection {
            kind: RejectionKind::Lex(error.kind),
            at: error.at,
        };
    }
    match tokens.fork().next() {
        Some(token) => Rejection {
            kind: token_rejection(token.form),
            at: token.lo,
        },
        None => unreachable!(),
    }
}

#[inline(always)]
pub fn next_list_literal<'t>(tokens: &mut Tokens<'t>) -> ListStep<'t> {
    if tokens.rest().is_empty() {
        return ListStep::End;
    }
    match next_literal(tokens) {
        Some(literal) => ListStep::Literal(literal),
        None => ListStep::Rejected(rejection_at(tokens)),
    }
}
