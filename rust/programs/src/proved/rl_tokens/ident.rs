// Rendered from crates/rl_tokens/src/ident.rt by tools/render, which erases contracts: change that file, and render again.
//! Identifier tokens.

use crate::rattle_std::prelude::{String};
use crate::rl_tokens::error::Error;
use crate::rl_syntax::Span;
pub use crate::rl_syntax::ident::xid_ok;
use crate::rattle_std::alloc::{Allocator, Global};

pub struct Ident<A: Allocator = Global> {
    text: String<A>,
    span: Span,
}

impl<A: Allocator> Ident<A> {
    pub fn new(alloc: A, text: &str, span: Span) -> Result<Ident<A>, Error<A>> {
        match String::from_str(alloc, text) {
            Ok(text) => Ok(Ident { text, span }),
            Err(_) => Err(Error::out_of_memory(span)),
        }
    }

    pub(crate) fn of_string(text: String<A>, span: Span) -> Ident<A> {
        Ident { text, span }
    }

    pub fn text(&self) -> &str {
        self.text.as_str()
    }

    pub fn span(&self) -> Span {
        self.span
    }

    pub fn clone<B: Allocator>(&self, alloc: B) -> Result<Ident<B>, Error<B>> {
        Ident::new(alloc, self.text(), self.span)
    }

    pub fn set_span(&mut self, span: Span) {
        self.span = span;
    }
}
