// Rendered from crates/rl_program/src/streams.rt by tools/render, which erases contracts: change that file, and render again.
//! Reads a whole input, and writes all bytes of an output.

use crate::rattle_std::prelude::{Vec, prove};
use crate::rl_program::program_error::ProgramError;
use crate::rattle_std::alloc::Allocator;
use crate::rattle_std::io::{ErrorKind, Read, Write};

const TURN: usize = 8192;

const TURNS: u32 = u32::MAX;

const _: () = prove!(TURNS == 4_294_967_295);

pub fn read_whole<A: Allocator, R: Read>(
    alloc: A,
    input: &mut R,
) -> Result<Vec<u8, A>, ProgramError<A>> {
    let mut bytes = Vec::new(alloc);
    let mut turn = [0_u8; TURN];
    for _ in 0..TURNS {
        match input.read(&mut turn) {
            Ok(0) => return Ok(bytes),
            Ok(count) => {
                if bytes.extend_from_slice(&turn[..count]).is_err() {
                    return Err(ProgramError::Memory);
                }
            }
            Err(_) => return Err(ProgramError::Read),
        }
    }
    Err(ProgramError::Read)
}

pub fn text_of<A: Allocator>(bytes: &[u8]) -> Result<&str, ProgramError<A>> {
    match crate::rattle_std::str::from_utf8(bytes) {
        Ok(text) => Ok(text),
        Err(_) => Err(ProgramError::NotText),
    }
}

#[derive(Clone, Copy, PartialEq, Eq, Debug)]
pub enum WriteError {
    Closed,
    Failed,
}

fn write_error(kind: ErrorKind) -> WriteError {
    match kind {
        ErrorKind::BrokenPipe => WriteError::Closed,
        _ => WriteError::Failed,
    }
}

pub fn write_bytes<W: Write>(out: &mut W, bytes: &[u8]) -> Result<(), WriteError> {
    let mut rest = bytes;
    while !rest.is_empty() {
        match out.write(rest) {
            Ok(0) => return Err(WriteError::Failed),
            Ok(count) => rest = &rest[count..],
            Err(error) => return Err(write_error(error.kind())),
        }
    }
    Ok(())
}

pub fn write_whole<A: Allocator, W: Write>(out: &mut W, bytes: &[u8]) -> Result<(), ProgramError<A>> {
    match write_bytes(out, bytes) {
        Ok(()) => Ok(()),
        Err(_) => Err(ProgramError::Write),
    }
}
