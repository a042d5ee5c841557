//! Test streams that follow a list of steps, and the text form of a call's result.

use crate::rattle_std::io::{Error, ErrorKind, Read, Result, Write};
use crate::rattle_std::vec::Vec;
use core::fmt::Debug;

/// The behaviour of a stream in one call.
#[derive(Clone, Copy)]
pub enum Step {
    /// The stream transfers at most this number of bytes.
    Pass(usize),
    Fail(ErrorKind),
}

/// The remaining steps of a stream, after which it transfers all bytes, and the number of bytes that each call so far requested.
struct Steps<'a> {
    left: &'a [Step],
    asked: std::vec::Vec<usize>,
}

impl<'a> Steps<'a> {
    fn new(left: &'a [Step]) -> Steps<'a> {
        let asked = std::vec::Vec::new();
        Steps { left, asked }
    }

    fn next(&mut self, len: usize) -> Result<usize> {
        self.asked.push(len);
        let Some((step, left)) = self.left.split_first() else {
            return Ok(len);
        };
        self.left = left;
        match *step {
            Step::Pass(count) => Ok(count.min(len)),
            Step::Fail(kind) => Err(Error::from(kind)),
        }
    }
}

/// A reader that follows steps.
pub struct Script<'a> {
    steps: Steps<'a>,
    bytes: &'a [u8],
}

impl<'a> Script<'a> {
    pub fn new(steps: &'a [Step], bytes: &'a [u8]) -> Script<'a> {
        let steps = Steps::new(steps);
        Script { steps, bytes }
    }

    pub fn asked(&self) -> &[usize] {
        &self.steps.asked
    }
}

impl Read for &mut Script<'_> {
    fn read(&mut self, buf: &mut [u8]) -> Result<usize> {
        let most = self.steps.next(buf.len())?;
        self.bytes.read(&mut buf[..most])
    }
}

/// A writer for tests. Each call of `write` does what the next step prescribes: it takes some bytes, or fails.
pub struct Taker<'a> {
    steps: Steps<'a>,
    taken: std::vec::Vec<u8>,
}

impl<'a> Taker<'a> {
    pub fn new(steps: &'a [Step]) -> Taker<'a> {
        Taker {
            steps: Steps::new(steps),
            taken: std::vec::Vec::new(),
        }
    }

    pub fn asked(&self) -> &[usize] {
        &self.steps.asked
    }

    pub fn taken(&self) -> &str {
        text(&self.taken)
    }
}

impl Write for &mut Taker<'_> {
    fn write(&mut self, bytes: &[u8]) -> Result<usize> {
        let most = self.steps.next(bytes.len())?;
        self.taken.extend_from_slice(&bytes[..most]);
        Ok(most)
    }
}

pub fn text(bytes: &[u8]) -> &str {
    core::str::from_utf8(bytes).unwrap_or("(not UTF-8)")
}

/// Shows the result of a call. For an error it shows the error's kind and the system's error number.
pub fn told<T: Debug>(answer: Result<T>) -> std::string::String {
    match answer {
        Ok(value) => format!("Ok({value:?})"),
        Err(error) => format!("Err({:?}, {:?})", error.kind(), error.raw_os_error()),
    }
}

/// Creates a list of these items.
pub fn list_of<T: Copy>(items: &[T]) -> Vec<T> {
    let made = Vec::from_slice(crate::rattle_std::alloc::Global, items);
    made.unwrap_or_else(|_| panic!("no memory"))
}
