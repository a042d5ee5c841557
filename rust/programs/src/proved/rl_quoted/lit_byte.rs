// Rendered from crates/rl_quoted/src/lit_byte.rt by tools/render, which erases contracts: change that file, and render again.
//! The type of byte literals.

use crate::rl_quoted::quoted::{Quoted, QuotedKind};
use crate::rl_lenient::byte_of_body;
use crate::rl_syntax::Kind;
use crate::rl_tokens::{Error, Literal, Span};
use crate::rattle_std::alloc::{Allocator, Global};

pub struct ByteKind;

impl QuotedKind for ByteKind {
    const KIND: Kind = Kind::Byte;
}

pub type LitByte<A = Global> = Quoted<ByteKind, A>;

impl<A: Allocator> LitByte<A> {
    pub fn new(alloc: A, value: u8, span: Span) -> Result<LitByte<A>, Error<A>> {
        match Literal::byte_character(alloc, value) {
            Ok(token) => Ok(Quoted::written(token, &[value], span)),
            Err(_) => Err(Error::out_of_memory(span)),
        }
    }

    pub fn value(&self) -> u8 {
        byte_of_body(self.single_body())
    }
}
