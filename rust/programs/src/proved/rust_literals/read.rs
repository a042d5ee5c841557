// Rendered from crates/rust_literals/src/read.rt by tools/render, which erases contracts: change that file, and render again.
//! The function that returns all literals of a text.

use crate::rattle_std::prelude::{Vec};
use crate::rust_literals::flat::read_flat;
use crate::rust_literals::lit::Lit;
use crate::rl_fronts::Front;
use crate::rl_tokens::{Error, ParseBuffer, Span, lex_for_parsing};
use crate::rattle_std::alloc::{Allocator, Global};

fn pass<A: Allocator>(input: &mut ParseBuffer<'_, A>, count: usize) {
    for _ in 0..count {
        let _ = Front::take(input);
    }
}

fn read_on<A: Allocator + Copy>(
    alloc: A,
    input: &mut ParseBuffer<'_, A>,
    mut list: Vec<Lit<A>, A>,
) -> Result<Vec<Lit<A>, A>, Error<A>> {
    while !input.is_empty() {
        let literal = input.parse::<Lit<A>>(alloc)?;
        if let Err(failed) = list.push(literal) {
            drop(failed);
            return Err(Error::out_of_memory(Span::call_site()));
        }
    }
    Ok(list)
}

fn read_from<A: Allocator + Copy>(
    alloc: A,
    text: &str,
    file: u32,
    count: usize,
    list: Vec<Lit<A>, A>,
) -> Result<Vec<Lit<A>, A>, Error<A>> {
    let stream = lex_for_parsing(alloc, text, file)?;
    let end = Span::new(file, text.len(), text.len());
    let mut input = ParseBuffer::new(stream.trees(), end);
    pass(&mut input, count);
    read_on(alloc, &mut input, list)
}

pub(crate) fn read_after<A: Allocator + Copy>(
    alloc: A,
    text: &str,
    file: u32,
    count: usize,
) -> Result<Vec<Lit<A>, A>, Error<A>> {
    read_from(alloc, text, file, count, Vec::new(alloc))
}

pub fn read_all<A: Allocator + Copy>(
    alloc: A,
    text: &str,
    file: u32,
) -> Result<Vec<Lit<A>, A>, Error<A>> {
    match read_flat(alloc, text, file) {
        Ok(literals) => Ok(literals),
        Err(begun) => read_from(alloc, text, file, begun.len(), begun),
    }
}
