// Rendered from crates/rl_program/src/rejection.rt by tools/render, which erases contracts: change that file, and render again.
//! The line by which programs report an error of the library.

use crate::rl_tokens::Error;
use crate::rattle_std::alloc::{Allocator, Global};
use crate::rattle_std::fmt;

pub struct Rejection<'a, A: Allocator = Global>(pub &'a Error<A>);

impl<A: Allocator> fmt::Display for Rejection<'_, A> {
    fn fmt(&self, f: &mut fmt::Formatter<'_>) -> fmt::Result {
        let error = self.0;
        let lo = error.span.lo;
        let hi = error.span.hi;
        write!(f, "error at {lo}..{hi}: {error}")
    }
}
