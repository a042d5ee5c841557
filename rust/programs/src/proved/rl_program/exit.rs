// Rendered from crates/rl_program/src/exit.rt by tools/render, which erases contracts: change that file, and render again.
//! The arguments of a program, and its exit status.

use crate::rattle_std::prelude::{Drop, Eprint, HostRuntime, String, Vec};
use crate::rattle_std::alloc::AllocError;
use crate::rattle_std::io::ErrorKind;
use crate::rattle_std::process::ExitCode;
use crate::rattle_std::{env, fmt};

pub trait RunError: fmt::Display {
    fn status(&self) -> u8;
}

pub enum Ending<E> {
    Done,
    FoundBad,
    Reported,
    Closed,
    Usage(&'static str),
    Failed(E),
}

impl<E: RunError> Ending<E> {
    pub fn status(&self) -> u8 {
        match self {
            Ending::Done | Ending::Closed => 0,
            Ending::FoundBad => 1,
            Ending::Reported | Ending::Usage(_) => 2,
            Ending::Failed(error) => error.status(),
        }
    }
}

impl<E: fmt::Display> fmt::Display for Ending<E> {
    fn fmt(&self, f: &mut fmt::Formatter<'_>) -> fmt::Result {
        match self {
            Ending::Done | Ending::FoundBad | Ending::Reported | Ending::Closed => Ok(()),
            Ending::Usage(line) => f.write_str(line),
            Ending::Failed(error) => write!(f, "{error}"),
        }
    }
}

pub fn arguments(rt: &HostRuntime) -> Result<Vec<String>, AllocError> {
    match env::args(rt) {
        Ok(args) => args.collect(rt.alloc()),
        Err(error) => match error.kind() {
            ErrorKind::OutOfMemory => Err(AllocError),
            _ => Ok(Vec::new(rt.alloc())),
        },
    }
}

pub fn finish<E: RunError + Drop>(rt: &impl Eprint, ending: Ending<E>) -> ExitCode {
    let status = ending.status();
    match ending {
        Ending::Done | Ending::FoundBad | Ending::Reported | Ending::Closed => {}
        reported => {
            let _ = rt.eprintln(reported);
        }
    }
    ExitCode::from(status)
}
