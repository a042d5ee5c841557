// Rendered from crates/rl_tokens/src/kept.rt by tools/render, which erases contracts: change that file, and render again.
//! A value that a function was given, returned with the error if the function fails.

use crate::rattle_std::prelude::{Drop};
use crate::rl_tokens::error::Error;
use crate::rattle_std::alloc::{Allocator, Global};

#[derive(Debug)]
pub struct Kept<T, A: Allocator = Global> {
    pub value: T,
    pub error: Error<A>,
}

impl<T: Drop, A: Allocator> From<Kept<T, A>> for Error<A> {
    fn from(kept: Kept<T, A>) -> Error<A> {
        kept.error
    }
}
