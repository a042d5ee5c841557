// Rendered from crates/rl_program/src/run.rt by tools/render, which erases contracts: change that file, and render again.
//! Runs a command of `rl_tool` with any reader and writer.

use crate::rattle_std::prelude::{String, Vec};
use crate::rl_program::attribute_lines::attribute_lines;
use crate::rl_program::command::Command;
use crate::rl_program::list::literal_lines;
use crate::rl_program::lit_line::output_line;
use crate::rl_program::program_error::ProgramError;
use crate::rl_program::streams::{read_whole, text_of, write_whole};
use crate::rl_tokens::{Literal, Span};
use crate::rust_literals::Lit;
use crate::rattle_std::alloc::Allocator;
use crate::rattle_std::io::{Read, Write};

fn token_of<A: Allocator + Copy>(alloc: A, bytes: Vec<u8, A>) -> Result<Literal<A>, ProgramError<A>> {
    let text = text_of(bytes.as_slice())?;
    let span = Span::new(0, 0, text.len());
    match Literal::from_text(alloc, text, span) {
        Ok(token) => Ok(token),
        Err(_) => Err(ProgramError::Memory),
    }
}

fn literal_of<A: Allocator + Copy>(alloc: A, token: Literal<A>) -> Result<Lit<A>, ProgramError<A>> {
    match Lit::new(alloc, token) {
        Ok(literal) => Ok(literal),
        Err(kept) => Err(ProgramError::Literal(kept.error)),
    }
}

fn literal_line<A: Allocator + Copy>(
    alloc: A,
    bytes: Vec<u8, A>,
) -> Result<String<A>, ProgramError<A>> {
    let token = token_of(alloc, bytes)?;
    let literal = literal_of(alloc, token)?;
    let line = output_line(alloc, &literal)?;
    Ok(line)
}

fn lines_of_input<A: Allocator + Copy>(
    alloc: A,
    command: Command,
    bytes: Vec<u8, A>,
) -> Result<String<A>, ProgramError<A>> {
    match command {
        Command::Text => literal_line(alloc, bytes),
        Command::Read => literal_lines(alloc, text_of(bytes.as_slice())?),
        Command::Attr => attribute_lines(alloc, text_of(bytes.as_slice())?),
    }
}

pub fn run<A: Allocator + Copy, R: Read, W: Write>(
    alloc: A,
    command: Command,
    input: &mut R,
    out: &mut W,
) -> Result<(), ProgramError<A>> {
    let bytes = read_whole(alloc, input)?;
    let lines = match lines_of_input(alloc, command, bytes) {
        Ok(lines) => lines,
        Err(error) => return Err(error),
    };
    write_whole(out, lines.as_bytes())
}
