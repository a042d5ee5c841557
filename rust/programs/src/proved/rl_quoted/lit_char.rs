// Rendered from crates/rl_quoted/src/lit_char.rt by tools/render, which erases contracts: change that file, and render again.
//! The type of character literals.

use crate::rl_quoted::quoted::{Quoted, QuotedKind};
use crate::rl_lenient::char_of_body;
use crate::rl_syntax::Kind;
use crate::rl_tokens::{Error, Literal, Span};
use crate::rattle_std::alloc::{Allocator, Global};

pub struct CharKind;

impl QuotedKind for CharKind {
    const KIND: Kind = Kind::Char;
}

pub type LitChar<A = Global> = Quoted<CharKind, A>;

impl<A: Allocator> LitChar<A> {
    pub fn new(alloc: A, value: char, span: Span) -> Result<LitChar<A>, Error<A>> {
        match Literal::character(alloc, value) {
            Ok(token) => Ok(Quoted::written(
                token,
                value.encode_utf8(&mut [0; 4]).as_bytes(),
                span,
            )),
            Err(_) => Err(Error::out_of_memory(span)),
        }
    }

    pub fn value(&self) -> char {
        char_of_body(self.single_body())
    }
}
