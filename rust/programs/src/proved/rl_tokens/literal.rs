// Rendered from crates/rl_tokens/src/literal.rt by tools/render, which erases contracts: change that file, and render again.
//! Literal tokens.

use crate::rattle_std::prelude::{String};
use crate::rl_tokens::error::Error;
use crate::rl_syntax::Span;
use crate::rattle_std::alloc::{AllocError, Allocator, Global};
use crate::rattle_std::fmt;

pub struct Literal<A: Allocator = Global> {
    text: String<A>,
    span: Span,
}

impl<A: Allocator> Literal<A> {
    pub fn from_text(alloc: A, text: &str, span: Span) -> Result<Literal<A>, Error<A>> {
        match String::from_str(alloc, text) {
            Ok(text) => Ok(Literal { text, span }),
            Err(_) => Err(Error::out_of_memory(span)),
        }
    }

    pub fn negative(alloc: A, text: &str, span: Span) -> Result<Literal<A>, Error<A>> {
        let Ok(text) = text_after_minus(alloc, text) else {
            return Err(Error::out_of_memory(span));
        };
        Ok(Literal { text, span })
    }

    pub(crate) fn of_string(text: String<A>, span: Span) -> Literal<A> {
        Literal { text, span }
    }

    pub fn text(&self) -> &str {
        self.text.as_str()
    }

    pub fn span(&self) -> Span {
        self.span
    }

    pub fn clone<B: Allocator>(&self, alloc: B) -> Result<Literal<B>, Error<B>> {
        Literal::from_text(alloc, self.text(), self.span)
    }

    pub fn with_minus<B: Allocator>(&self, alloc: B, span: Span) -> Result<Literal<B>, Error<B>> {
        Literal::negative(alloc, self.text(), span)
    }

    pub fn set_span(&mut self, span: Span) {
        self.span = span;
    }
}

fn text_after_minus<A: Allocator>(alloc: A, text: &str) -> Result<String<A>, AllocError> {
    let mut joined = String::with_capacity(alloc, text.len() + 1)?;
    joined.push('-')?;
    joined.push_str(text)?;
    Ok(joined)
}

impl<A: Allocator> fmt::Display for Literal<A> {
    fn fmt(&self, f: &mut fmt::Formatter<'_>) -> fmt::Result {
        f.pad(self.text.as_str())
    }
}
