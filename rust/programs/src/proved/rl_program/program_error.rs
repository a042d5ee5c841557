// Rendered from crates/rl_program/src/program_error.rt by tools/render, which erases contracts: change that file, and render again.
//! The errors that end a program's run.

use crate::rl_program::exit::RunError;
use crate::rl_program::rejection::Rejection;
use crate::rl_tokens::Error;
use crate::rattle_std::alloc::{AllocError, Allocator, Global};
use crate::rattle_std::fmt;

#[derive(Debug)]
pub enum ProgramError<A: Allocator = Global> {
    Read,
    Write,
    NotText,
    Memory,
    Literal(Error<A>),
}

impl<A: Allocator> RunError for ProgramError<A> {
    fn status(&self) -> u8 {
        match self {
            ProgramError::Read | ProgramError::Write => 2,
            _ => 1,
        }
    }
}

impl<A: Allocator> From<AllocError> for ProgramError<A> {
    fn from(_: AllocError) -> Self {
        Self::Memory
    }
}

impl<A: Allocator> fmt::Display for ProgramError<A> {
    fn fmt(&self, f: &mut fmt::Formatter<'_>) -> fmt::Result {
        match self {
            ProgramError::Read => write!(f, "error: read failed"),
            ProgramError::Write => write!(f, "error: write failed"),
            ProgramError::NotText => write!(f, "error: input is not UTF-8"),
            ProgramError::Memory => write!(f, "error: out of memory"),
            ProgramError::Literal(error) => write!(f, "{}", Rejection(error)),
        }
    }
}
