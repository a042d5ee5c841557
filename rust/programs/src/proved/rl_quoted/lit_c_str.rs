// Rendered from crates/rl_quoted/src/lit_c_str.rt by tools/render, which erases contracts: change that file, and render again.
//! The type of C string literals.

use crate::rl_quoted::quoted::{Quoted, QuotedKind};
use crate::rl_fronts::bytes_of_body;
use crate::rl_syntax::Kind;
use crate::rl_tokens::{CString, Error, Literal, Span};
use crate::rattle_std::alloc::{Allocator, Global};

pub struct CStrKind;

impl QuotedKind for CStrKind {
    const KIND: Kind = Kind::CStr;
}

pub type LitCStr<A = Global> = Quoted<CStrKind, A>;

impl<A: Allocator> LitCStr<A> {
    pub fn new<C: Allocator>(
        alloc: A,
        value: &CString<C>,
        span: Span,
    ) -> Result<LitCStr<A>, Error<A>> {
        match Literal::c_string(alloc, value) {
            Ok(token) => Ok(Quoted::written(token, value.as_bytes(), span)),
            Err(_) => Err(Error::out_of_memory(span)),
        }
    }

    pub fn value<B: Allocator>(&self, alloc: B) -> Result<CString<B>, Error<B>> {
        let (body, plain) = self.body();
        match bytes_of_body(alloc, Kind::CStr, body, plain) {
            Ok(bytes) => Ok(CString::new(bytes).unwrap()),
            Err(_) => Err(Error::out_of_memory(self.token.span())),
        }
    }

    pub fn value_ref(&self) -> Option<&[u8]> {
        let (body, plain) = self.body();
        if plain { Some(body.as_bytes()) } else { None }
    }
}
