// Rendered from crates/rust_literals/src/flat.rt by tools/render, which erases contracts: change that file, and render again.
//! Functions that read the literals of a text token by token, without building token trees. A text of literals contains no
//! groups.

use crate::rattle_std::prelude::{Vec};
use crate::rust_literals::lit::Lit;
use crate::rust_literals::lit_bool::LitBool;
use crate::rl_lenient::{bool_of, parse_with_added_minus};
use crate::rl_tokens::{Form, Literal, Span, Tokens};
use crate::rattle_std::alloc::{AllocError, Allocator, Global};

fn literal_of<A: Allocator + Copy>(alloc: A, text: &str, span: Span) -> Result<Lit<A>, AllocError> {
    let Ok(token) = Literal::from_text(alloc, text, span) else {
        return Err(AllocError);
    };
    match Lit::new(alloc, token) {
        Ok(literal) => Ok(literal),
        Err(_) => Err(AllocError),
    }
}

fn negative_of<A: Allocator + Copy>(
    alloc: A,
    text: &str,
    span: Span,
) -> Result<Option<Lit<A>>, AllocError> {
    let Some(found) = parse_with_added_minus(text) else {
        return Ok(None);
    };
    let Ok(token) = Literal::negative(alloc, text, span) else {
        return Err(AllocError);
    };
    match Lit::of_found(alloc, token, Some(found)) {
        Ok(literal) => Ok(Some(literal)),
        Err(_) => Err(AllocError),
    }
}

#[inline(always)]
pub(crate) fn take_next<A: Allocator + Copy>(
    alloc: A,
    tokens: &mut Tokens<'_>,
    file: u32,
) -> Result<Option<Lit<A>>, AllocError> {
    let Some(token) = tokens.next() else {
        return Ok(None);
    };
    let span = Span::new(file, token.lo, token.hi);
    match token.form {
        Form::Literal => Ok(Some(literal_of(alloc, token.text, span)?)),
        Form::Identifier => match bool_of(token.text) {
            Some(value) => Ok(Some(Lit::Bool(LitBool::new(value, span)))),
            None => Ok(None),
        },
        Form::Mark('-') => {
            let Some(number) = tokens.next() else {
                return Ok(None);
            };
            let Form::Literal = number.form else {
                return Ok(None);
            };
            let Some(joined) = span.join(Span::new(file, number.lo, number.hi)) else {
                return Ok(None);
            };
            let Some(literal) = negative_of(alloc, number.text, joined)? else {
                return Ok(None);
            };
            Ok(Some(literal))
        }
        _ => Ok(None),
    }
}
pub fn push_leading_literal<A: Allocator + Copy>(
    alloc: A,
    tokens: &mut Tokens<'_>,
    file: u32,
    list: &mut Vec<Lit<A>, A>,
) -> Result<bool, AllocError> {
    let mut ahead = tokens.fork();
    let Some(literal) = take_next(alloc, &mut ahead, file)? else {
        return Ok(false);
    };
    if let Err(failed) = list.push(literal) {
        drop(failed);
        return Err(AllocError);
    }
    *tokens = ahead;
    Ok(true)
}

pub(crate) fn read_flat<A: Allocator + Copy>(
    alloc: A,
    text: &str,
    file: u32,
) -> Result<Vec<Lit<A>, A>, Vec<Lit<A>, A>> {
    let mut list = Vec::new(alloc);
    let mut tokens = Tokens::new(text);
    while !tokens.rest().is_empty() {
        let Ok(true) = push_leading_literal(alloc, &mut tokens, file, &mut list) else {
            return Err(list);
        };
    }
    Ok(list)
}
