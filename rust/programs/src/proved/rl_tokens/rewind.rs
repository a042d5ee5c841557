// Rendered from crates/rl_tokens/src/rewind.rt by tools/render, which erases contracts: change that file, and render again.
//! A function that runs a parser and puts the buffer back to its old position if the parser fails.

use crate::rattle_std::prelude::{Drop};
use crate::rl_tokens::buffer::ParseBuffer;
use crate::rattle_std::alloc::Allocator;

pub trait Rewind: Sized {
    fn here(&self) -> Self;
}

impl<'a, A: Allocator> Rewind for ParseBuffer<'a, A> {
    fn here(&self) -> ParseBuffer<'a, A> {
        self.fork()
    }
}

fn ran<B, T, E, F: FnOnce(&mut B) -> Result<T, E>>(input: &mut B, parser: F) -> Result<T, E> {
    parser(input)
}

pub fn attempt<B: Rewind + Drop, T, E, F: FnOnce(&mut B) -> Result<T, E>>(
    input: &mut B,
    parser: F,
) -> Result<T, E> {
    let before = input.here();
    match ran(input, parser) {
        Ok(value) => Ok(value),
        Err(error) => {
            *input = before;
            Err(error)
        }
    }
}
