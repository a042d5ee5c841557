// Rendered from crates/rl_scan/src/failure.rt by tools/render, which erases contracts: change that file, and render again.
//! The reason why a call of `rl_scan` ends early.

use crate::rattle_std::prelude::{Drop, String};
use crate::rl_program::{RunError, WriteError};
use crate::rattle_std::alloc::{AllocError, AllocFailed, Allocator, Global};
use crate::rattle_std::fmt;

pub enum Failure<A: Allocator = Global> {
    NoArguments,
    Memory,
    TooManyDirectories,
    Closed,
    Write,
    Said(String<A>),
}

pub(crate) type Appended = Result<(), AllocError>;

pub(crate) type Done<A> = Result<(), Failure<A>>;

impl<A: Allocator> Failure<A> {
    pub(crate) fn said(alloc: A, words: &str) -> Failure<A> {
        match String::from_str(alloc, words) {
            Ok(line) => Failure::Said(line),
            Err(_) => Failure::Memory,
        }
    }
}

impl<A: Allocator> From<AllocError> for Failure<A> {
    fn from(_: AllocError) -> Self {
        Failure::Memory
    }
}

impl<T: Drop, A: Allocator> From<AllocFailed<T>> for Failure<A> {
    fn from(_: AllocFailed<T>) -> Self {
        Failure::Memory
    }
}

impl<A: Allocator> From<WriteError> for Failure<A> {
    fn from(error: WriteError) -> Self {
        match error {
            WriteError::Closed => Failure::Closed,
            WriteError::Failed => Failure::Write,
        }
    }
}

impl<A: Allocator> RunError for Failure<A> {
    fn status(&self) -> u8 {
        2
    }
}

impl<A: Allocator> fmt::Display for Failure<A> {
    fn fmt(&self, f: &mut fmt::Formatter<'_>) -> fmt::Result {
        match self {
            Failure::NoArguments => write!(f, "rl_scan: there are no arguments"),
            Failure::Memory => write!(f, "rl_scan: out of memory"),
            Failure::TooManyDirectories => write!(f, "rl_scan: too many directories"),
            Failure::Closed | Failure::Write => write!(f, "rl_scan: write failed"),
            Failure::Said(line) => {
                let mut is_first = true;
                for part in line.as_str().split("##[") {
                    let lead = if is_first { "rl_scan: " } else { "##\\u{5b}" };
                    write!(f, "{lead}{part}")?;
                    is_first = false;
                }
                Ok(())
            }
        }
    }
}
