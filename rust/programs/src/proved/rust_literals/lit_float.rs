// Rendered from crates/rust_literals/src/lit_float.rt by tools/render, which erases contracts: change that file, and render again.
//! The type of float literals.

use crate::rust_literals::number::{Number, NumberKind};
use crate::rl_lenient::{Found, parse_float_literal};
use crate::rl_syntax::Kind;
use crate::rl_tokens::ErrorKind;
use crate::rattle_std::alloc::{Allocator, Global};

pub struct FloatKind;

pub type LitFloat<A = Global> = Number<FloatKind, A>;

impl NumberKind for FloatKind {
    const KIND: Kind = Kind::Float;

    fn find<A: Allocator>(text: &str) -> Result<Found, ErrorKind<A>> {
        match parse_float_literal(text) {
            Some(found) => Ok(found),
            None => Err(ErrorKind::NotFloat),
        }
    }
}
