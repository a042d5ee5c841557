// Rendered from crates/rl_quoted/src/lit_str.rt by tools/render, which erases contracts: change that file, and render again.
//! The type of string literals.

use crate::rattle_std::prelude::{String};
use crate::rl_quoted::quoted::{Quoted, QuotedKind};
use crate::rl_fronts::str_of_body;
use crate::rl_syntax::Kind;
use crate::rl_tokens::{Error, Literal, Span};
use crate::rattle_std::alloc::{Allocator, Global};

pub struct StrKind;

impl QuotedKind for StrKind {
    const KIND: Kind = Kind::Str;
}

pub type LitStr<A = Global> = Quoted<StrKind, A>;

impl<A: Allocator> LitStr<A> {
    pub fn new(alloc: A, value: &str, span: Span) -> Result<LitStr<A>, Error<A>> {
        match Literal::string(alloc, value) {
            Ok(token) => Ok(Quoted::written(token, value.as_bytes(), span)),
            Err(_) => Err(Error::out_of_memory(span)),
        }
    }

    pub fn value<B: Allocator>(&self, alloc: B) -> Result<String<B>, Error<B>> {
        let (body, plain) = self.body();
        match str_of_body(alloc, body, plain) {
            Ok(value) => Ok(value),
            Err(_) => Err(Error::out_of_memory(self.token.span())),
        }
    }

    pub fn value_ref(&self) -> Option<&str> {
        let (body, plain) = self.body();
        if plain { Some(body) } else { None }
    }
}
