// Rendered from crates/rl_quoted/src/lit_byte_str.rt by tools/render, which erases contracts: change that file, and render again.
//! The type of byte string literals.

use crate::rattle_std::prelude::{Vec};
use crate::rl_quoted::quoted::{Quoted, QuotedKind};
use crate::rl_fronts::bytes_of_body;
use crate::rl_syntax::Kind;
use crate::rl_tokens::{Error, Literal, Span};
use crate::rattle_std::alloc::{Allocator, Global};

pub struct ByteStrKind;

impl QuotedKind for ByteStrKind {
    const KIND: Kind = Kind::ByteStr;
}

pub type LitByteStr<A = Global> = Quoted<ByteStrKind, A>;

impl<A: Allocator> LitByteStr<A> {
    pub fn new(alloc: A, value: &[u8], span: Span) -> Result<LitByteStr<A>, Error<A>> {
        match Literal::byte_string(alloc, value) {
            Ok(token) => Ok(Quoted::written(token, value, span)),
            Err(_) => Err(Error::out_of_memory(span)),
        }
    }

    pub fn value<B: Allocator>(&self, alloc: B) -> Result<Vec<u8, B>, Error<B>> {
        let (body, plain) = self.body();
        match bytes_of_body(alloc, Kind::ByteStr, body, plain) {
            Ok(value) => Ok(value),
            Err(_) => Err(Error::out_of_memory(self.token.span())),
        }
    }

    pub fn value_ref(&self) -> Option<&[u8]> {
        let (body, plain) = self.body();
        if plain { Some(body.as_bytes()) } else { None }
    }
}
