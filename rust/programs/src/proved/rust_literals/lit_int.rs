// Rendered from crates/rust_literals/src/lit_int.rt by tools/render, which erases contracts: change that file, and render again.
//! The type of integer literals.

use crate::rust_literals::number::{Number, NumberKind};
use crate::rl_lenient::{Found, parse_int_literal};
use crate::rl_syntax::Kind;
use crate::rl_tokens::ErrorKind;
use crate::rattle_std::alloc::{Allocator, Global};

pub struct IntKind;

pub type LitInt<A = Global> = Number<IntKind, A>;

impl NumberKind for IntKind {
    const KIND: Kind = Kind::Int;

    fn find<A: Allocator>(text: &str) -> Result<Found, ErrorKind<A>> {
        match parse_int_literal(text) {
            Some(Some(found)) => Ok(found),
            Some(None) => Err(ErrorKind::TooLarge),
            None => Err(ErrorKind::NotInteger),
        }
    }
}
