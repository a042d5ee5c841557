// Rendered from crates/rl_program/src/attribute_lines.rt by tools/render, which erases contracts: change that file, and render again.
//! Writes the output lines of attributes.

use crate::rattle_std::prelude::{String};
use crate::rl_program::attr::{Entry, read};
use crate::rl_program::lit_line::push_literal_line;
use crate::rl_program::program_error::ProgramError;
use crate::rattle_std::alloc::{AllocError, Allocator};

fn push_entry<A: Allocator + Copy>(
    alloc: A,
    out: &mut String<A>,
    entry: &Entry<A>,
) -> Result<(), AllocError> {
    out.push_str(entry.name.as_str())?;
    out.push_str(" ")?;
    push_literal_line(alloc, out, &entry.value)
}

pub fn entry_lines<A: Allocator + Copy>(
    alloc: A,
    entries: &[Entry<A>],
) -> Result<String<A>, AllocError> {
    let mut lines = String::new(alloc);
    for entry in entries {
        push_entry(alloc, &mut lines, entry)?;
    }
    Ok(lines)
}

pub fn attribute_lines<A: Allocator + Copy>(
    alloc: A,
    text: &str,
) -> Result<String<A>, ProgramError<A>> {
    let attrs = match read(alloc, text, 0) {
        Ok(attrs) => attrs,
        Err(error) => return Err(ProgramError::Literal(error)),
    };
    let lines = entry_lines(alloc, attrs.entries())?;
    Ok(lines)
}
