//! Runs `rl_tool` on rows. A row's text has the arguments, one in each line, then U+001F, then standard input.

use crate::numbers::spelled;
use crate::rows::{check, check_bytes, check_headings};
use navyspindle_programs::rattle_std::alloc::Global;
use navyspindle_programs::rattle_std::io::{self, ErrorKind, Read, Write};
use navyspindle_programs::rattle_std::string::String as Text;
use navyspindle_programs::rl_program::{self, Ending, ProgramError, RunError};
use navyspindle_programs::rl_tokens::{self as tokens, Error, Span};

const TABLE: &str = include_str!("calls.rows");

#[test]
fn headings() {
    check_headings(TABLE, include_str!("calls.rs"));
}

/// The behaviour of the standard streams during a call of `rl_tool`.
#[derive(Clone, Copy)]
struct Streams {
    /// The largest number of bytes that one call of `read` or `write` transfers.
    at_once: usize,
    /// The number of bytes after which `read` fails.
    readable: usize,
    /// The number of bytes after which `write` fails.
    writable: usize,
    /// Whether `write`, after its limit, writes no byte and returns no error.
    is_full: bool,
}

/// Streams without limits.
const WIDE: Streams = Streams {
    at_once: usize::MAX,
    readable: usize::MAX,
    writable: usize::MAX,
    is_full: false,
};

/// A replacement for standard input, with limits.
struct Input<'a> {
    bytes: &'a [u8],
    streams: Streams,
}

impl Read for Input<'_> {
    fn read(&mut self, buf: &mut [u8]) -> io::Result<usize> {
        if self.streams.readable == 0 {
            return Err(ErrorKind::Interrupted.into());
        }
        let count = self
            .streams
            .at_once
            .min(self.streams.readable)
            .min(buf.len());
        self.streams.readable -= count;
        self.bytes.read(&mut buf[..count])
    }
}

/// A writer in place of standard output. It takes at most `at_once` bytes in one call. It fails after `writable` bytes.
struct Output {
    held: Vec<u8>,
    streams: Streams,
}

impl Write for Output {
    fn write(&mut self, buf: &[u8]) -> io::Result<usize> {
        if self.streams.writable == 0 && !self.streams.is_full {
            return Err(ErrorKind::BrokenPipe.into());
        }
        let count = self
            .streams
            .at_once
            .min(self.streams.writable)
            .min(buf.len());
        self.streams.writable -= count;
        self.held.extend_from_slice(&buf[..count]);
        Ok(count)
    }

    fn flush(&mut self) -> io::Result<()> {
        Ok(())
    }
}

/// Shows the exit status and the error message.
fn ended<E: RunError>(ending: &Ending<E>) -> String {
    format!("{} {ending}\n", ending.status())
}

/// Runs the program, and shows its output, exit status and error message.
fn called(words: &str, bytes: &[u8], streams: Streams) -> String {
    let words: Vec<Text> = words
        .split('\n')
        .map(|word| Text::from_str(Global, word).unwrap())
        .collect();
    let mut input = Input { bytes, streams };
    let mut output = Output {
        held: Vec::new(),
        streams,
    };
    let ending = rl_program::run_with_arguments(Global, &words, &mut input, &mut output);
    // If the output ends inside a character, it isn't shown.
    String::from_utf8(output.held).unwrap_or_default() + &ended(&ending)
}

#[test]
fn call() {
    check_bytes(TABLE, "call", |row| {
        let at = row.iter().position(|byte| *byte == 0x1f).unwrap();
        called(
            std::str::from_utf8(&row[..at]).unwrap(),
            &row[at + 1..],
            WIDE,
        )
    });
}

/// Runs `rl_tool` with limited streams. The limits are before the arguments: the bytes per call, the bytes before `read` fails, and
/// the bytes before `write` fails. `-` means no limit. With `full`, `write` writes nothing after its limit. Standard input is given
/// as repeated parts.
#[test]
fn call_by_streams() {
    check(TABLE, "call_by", |row| {
        let (streams, rest) = row.split_once('\u{1f}').unwrap();
        let (words, pieces) = rest.split_once('\u{1f}').unwrap();
        let limits: Vec<_> = streams.split(' ').collect();
        let limit = |at: usize| limits[at].parse().unwrap_or(usize::MAX);
        let is_full = limits.get(3) == Some(&"full");
        let streams = Streams {
            at_once: limit(0),
            readable: limit(1),
            writable: limit(2),
            is_full,
        };
        called(words, spelled(pieces, '\u{1e}').as_bytes(), streams)
    });
}

#[test]
fn endings() {
    check(TABLE, "endings", |_| {
        let literal: Error = Error {
            span: Span::new(0, 2, 5),
            kind: tokens::ErrorKind::TooLarge,
        };
        let errors = [
            ProgramError::Read,
            ProgramError::Write,
            ProgramError::NotText,
            ProgramError::Memory,
            ProgramError::Literal(literal),
        ];
        errors.map(|error| ended(&Ending::Failed(error))).concat()
    });
}
