// Rendered from crates/rl_program/src/list.rt by tools/render, which erases contracts: change that file, and render again.
//! Writes the output lines of the literals in a list. Each literal is dropped after its line is written.

use crate::rattle_std::prelude::{String};
use crate::rl_program::lit_line::push_literal_line;
use crate::rl_program::program_error::ProgramError;
use crate::rust_literals::{Lit, Literals};
use crate::rattle_std::alloc::Allocator;

fn with_line<A: Allocator + Copy>(
    alloc: A,
    lines: Option<String<A>>,
    literal: Lit<A>,
) -> Option<String<A>> {
    let mut longer = lines?;
    let pushed = push_literal_line(alloc, &mut longer, &literal);
    drop(literal);
    match pushed {
        Ok(()) => Some(longer),
        Err(_) => None,
    }
}

pub fn literal_lines<A: Allocator + Copy>(
    alloc: A,
    text: &str,
) -> Result<String<A>, ProgramError<A>> {
    let mut lines = Some(String::new(alloc));
    let mut literals = Literals::new(alloc, text, 0);
    loop {
        match literals.next() {
            Ok(Some(literal)) => lines = with_line(alloc, lines, literal),
            Ok(None) => return lines.ok_or(ProgramError::Memory),
            Err(error) => return Err(ProgramError::Literal(error)),
        }
    }
}
