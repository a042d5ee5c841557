//! A replacement for Rattle's `std::io`: readers, writers, the standard streams, and the errors of calls.
//!
//! It is more limited than Rattle's module:
//!
//! - An error has a kind and the system's error number, but no message. Kinds that the sources don't use are `Other`.
//! - No call gives up after 2^64 tries.
//!
//! The standard streams use Rust's own. Rust allocates a few kilobytes when a standard stream is used for the first time, and ends
//! the process if there is no memory for that. So the available memory is checked before. A closed standard stream reads as empty,
//! and accepts all output.

use super::alloc::{has_room, AllocError, AllocFailed, Allocator};
use super::rt::HostRuntime;
use super::string::String;
use super::vec::Vec;
use core::fmt;
use core::fmt::Write as _;
use core::sync::atomic::{AtomicBool, Ordering::Relaxed};
use std::io::{IsTerminal as TerminalOfStd, Read as _, Write as _};

pub type Result<T> = core::result::Result<T, Error>;

/// The kinds of errors that the sources use, and `Other` for all other kinds.
#[derive(Clone, Copy, PartialEq, Eq, Debug)]
pub enum ErrorKind {
    NotFound,
    PermissionDenied,
    AlreadyExists,
    BrokenPipe,
    Interrupted,
    IsADirectory,
    NotADirectory,
    /// The name or the path is too long. Without an error number of the system: the path of a link's target isn't UTF-8.
    InvalidFilename,
    /// The path contains a NUL.
    InvalidInput,
    /// The bytes must be a text, but aren't UTF-8.
    InvalidData,
    StorageFull,
    ReadOnlyFilesystem,
    /// A writer accepted no byte.
    WriteZero,
    OutOfMemory,
    Other,
}

/// The error of a failed call.
#[derive(Clone, Copy, Debug)]
pub struct Error {
    kind: ErrorKind,
    os: Option<i32>,
}

impl Error {
    pub(super) fn of(kind: ErrorKind) -> Error {
        Error { kind, os: None }
    }

    pub fn kind(&self) -> ErrorKind {
        self.kind
    }

    /// Returns the system's error number, or `None` if the error doesn't come from the system.
    pub fn raw_os_error(&self) -> Option<i32> {
        self.os
    }
}

impl From<std::io::Error> for Error {
    fn from(error: std::io::Error) -> Error {
        Error {
            kind: kind_of(error.kind()),
            os: error.raw_os_error(),
        }
    }
}

/// Converts the kind of a Rust error. Some kinds are recognized by their printed names, because Rust 1.81 has these kinds without
/// public names.
fn kind_of(kind: std::io::ErrorKind) -> ErrorKind {
    match kind {
        std::io::ErrorKind::NotFound => ErrorKind::NotFound,
        std::io::ErrorKind::PermissionDenied => ErrorKind::PermissionDenied,
        std::io::ErrorKind::AlreadyExists => ErrorKind::AlreadyExists,
        std::io::ErrorKind::BrokenPipe => ErrorKind::BrokenPipe,
        std::io::ErrorKind::Interrupted => ErrorKind::Interrupted,
        std::io::ErrorKind::InvalidInput => ErrorKind::InvalidInput,
        std::io::ErrorKind::InvalidData => ErrorKind::InvalidData,
        std::io::ErrorKind::WriteZero => ErrorKind::WriteZero,
        std::io::ErrorKind::OutOfMemory => ErrorKind::OutOfMemory,
        younger if is_called(younger, "IsADirectory") => ErrorKind::IsADirectory,
        younger if is_called(younger, "NotADirectory") => ErrorKind::NotADirectory,
        younger if is_called(younger, "InvalidFilename") => ErrorKind::InvalidFilename,
        younger if is_called(younger, "StorageFull") => ErrorKind::StorageFull,
        younger if is_called(younger, "ReadOnlyFilesystem") => ErrorKind::ReadOnlyFilesystem,
        _ => ErrorKind::Other,
    }
}

/// Whether the kind's `Debug` text is `word`. This function allocates nothing, because the error may be that memory is short.
fn is_called(kind: std::io::ErrorKind, word: &str) -> bool {
    struct Rest<'a>(&'a str);

    impl fmt::Write for Rest<'_> {
        fn write_str(&mut self, text: &str) -> fmt::Result {
            self.0 = self.0.strip_prefix(text).ok_or(fmt::Error)?;
            Ok(())
        }
    }

    let mut rest = Rest(word);
    write!(rest, "{kind:?}").is_ok() && rest.0.is_empty()
}

impl From<ErrorKind> for Error {
    fn from(kind: ErrorKind) -> Error {
        Error::of(kind)
    }
}

impl From<AllocError> for Error {
    fn from(_: AllocError) -> Error {
        Error::of(ErrorKind::OutOfMemory)
    }
}

impl<T> From<AllocFailed<T>> for Error {
    fn from(_: AllocFailed<T>) -> Error {
        Error::of(ErrorKind::OutOfMemory)
    }
}

/// A source of bytes.
pub trait Read {
    /// Reads some bytes into the buffer, and returns their number. The number is 0 if the buffer is empty or no byte is left.
    fn read(&mut self, buf: &mut [u8]) -> Result<usize>;
}

impl Read for &[u8] {
    fn read(&mut self, buf: &mut [u8]) -> Result<usize> {
        let (front, rest) = self.split_at(buf.len().min(self.len()));
        buf[..front.len()].copy_from_slice(front);
        *self = rest;
        Ok(front.len())
    }
}

/// A destination of bytes.
pub trait Write {
    /// Writes some of the bytes, and returns their number.
    fn write(&mut self, bytes: &[u8]) -> Result<usize>;

    /// Writes the buffered bytes. By default a writer has no buffered bytes.
    fn flush(&mut self) -> Result<()> {
        Ok(())
    }

    /// Writes all bytes. After an error, a part of them may have been written.
    fn write_all(&mut self, bytes: &[u8]) -> Result<()> {
        let mut rest = bytes;
        while !rest.is_empty() {
            match write_uninterrupted(self, rest)? {
                0 => return Err(Error::of(ErrorKind::WriteZero)),
                count => rest = &rest[count..],
            }
        }
        Ok(())
    }
}

/// Writes once, and again if a signal interrupted the write.
fn write_uninterrupted<W: Write + ?Sized>(writer: &mut W, bytes: &[u8]) -> Result<usize> {
    loop {
        match writer.write(bytes) {
            Err(error) if error.kind == ErrorKind::Interrupted => {}
            written => return written,
        }
    }
}

impl<A: Allocator> Write for Vec<u8, A> {
    fn write(&mut self, bytes: &[u8]) -> Result<usize> {
        self.extend_from_slice(bytes)?;
        Ok(bytes.len())
    }
}

/// A stream that may be a terminal.
pub trait IsTerminal {
    fn is_terminal(&self) -> bool;
}

/// The memory that Rust allocates when a standard stream is used for the first time.
struct Front {
    len: usize,
    is_there: AtomicBool,
}

impl Front {
    const fn new(len: usize) -> Front {
        Front {
            len,
            is_there: AtomicBool::new(false),
        }
    }

    /// Returns `true` if memory for the buffer was found before, or is found now. The buffer itself is allocated later.
    fn is_there(&self) -> bool {
        if !self.is_there.load(Relaxed) && has_room(self.len) {
            self.is_there.store(true, Relaxed);
        }
        self.is_there.load(Relaxed)
    }

    fn take(&self) -> Result<()> {
        if self.is_there() {
            Ok(())
        } else {
            Err(Error::of(ErrorKind::OutOfMemory))
        }
    }
}

/// Rust's buffers for these streams have 8,192 and 1,024 bytes.
static INPUT: Front = Front::new(10_000);
static OUTPUT: Front = Front::new(2_000);

/// Standard input.
#[derive(Clone, Copy)]
pub struct Stdin;

impl Read for Stdin {
    fn read(&mut self, buf: &mut [u8]) -> Result<usize> {
        INPUT.take()?;
        Ok(std::io::stdin().read(buf)?)
    }
}

impl IsTerminal for Stdin {
    fn is_terminal(&self) -> bool {
        INPUT.is_there() && TerminalOfStd::is_terminal(&std::io::stdin())
    }
}

/// Standard output. It has no buffer of its own. Each write is passed on at once.
#[derive(Clone, Copy)]
pub struct Stdout;

impl Write for Stdout {
    fn write(&mut self, bytes: &[u8]) -> Result<usize> {
        OUTPUT.take()?;
        let mut out = std::io::stdout().lock();
        let count = out.write(bytes)?;
        out.flush()?;
        Ok(count)
    }
}

impl IsTerminal for Stdout {
    fn is_terminal(&self) -> bool {
        OUTPUT.is_there() && TerminalOfStd::is_terminal(&std::io::stdout())
    }
}

/// Standard error.
#[derive(Clone, Copy)]
pub struct Stderr;

impl Write for Stderr {
    fn write(&mut self, bytes: &[u8]) -> Result<usize> {
        Ok(std::io::stderr().write(bytes)?)
    }
}

/// A handle that gives access to standard input.
pub trait Input {
    type Reader: Read;

    fn reader(&self) -> Self::Reader;
}

impl Input for HostRuntime {
    type Reader = Stdin;

    fn reader(&self) -> Stdin {
        Stdin
    }
}

/// A handle that writes lines to standard error.
pub trait Eprint {
    fn eprintln<T: fmt::Display>(&self, line: T) -> Result<()>;
}

impl Eprint for HostRuntime {
    /// This method allocates nothing, because the line may report that memory is short.
    fn eprintln<T: fmt::Display>(&self, line: T) -> Result<()> {
        let mut ahead = Ahead {
            bytes: [0; 1024],
            len: 0,
            error: None,
        };
        let is_formatted = writeln!(ahead, "{line}").is_ok();
        ahead.pass_on();
        match ahead.error {
            Some(error) => Err(error),
            None if is_formatted => Ok(()),
            None => Err(Error::of(ErrorKind::Other)),
        }
    }
}

/// A buffer for standard error. A short line is written in one call, so that output of other programs can't come between its parts.
struct Ahead {
    bytes: [u8; 1024],
    len: usize,
    error: Option<Error>,
}

impl Ahead {
    fn pass_on(&mut self) {
        let written = Stderr.write_all(&self.bytes[..self.len]);
        self.len = 0;
        self.error = self.error.or(written.err());
    }
}

impl fmt::Write for Ahead {
    fn write_str(&mut self, text: &str) -> fmt::Result {
        for byte in text.bytes() {
            if self.len == self.bytes.len() {
                self.pass_on();
            }
            if self.error.is_some() {
                return Err(fmt::Error);
            }
            self.bytes[self.len] = byte;
            self.len += 1;
        }
        Ok(())
    }
}

/// Returns the writer of standard output.
pub fn writer(rt: &HostRuntime) -> Stdout {
    rt.stdout()
}

fn text_of<A: Allocator>(bytes: Vec<u8, A>) -> Result<String<A>> {
    String::from_utf8(bytes).map_err(|_| Error::of(ErrorKind::InvalidData))
}

/// The number of bytes in the buffer of a reader or a writer.
const AHEAD: usize = 8192;

/// A buffered reader, which can be read in pieces.
pub struct BufReader<R, A: Allocator> {
    inner: R,
    /// The buffer. The bytes from `start` to `end` are read and not yet consumed.
    bytes: Vec<u8, A>,
    start: usize,
    end: usize,
}

impl<R: Read, A: Allocator> BufReader<R, A> {
    pub fn new(alloc: A, inner: R) -> Result<BufReader<R, A>> {
        Ok(BufReader {
            inner,
            bytes: Vec::filled(alloc, 0, AHEAD)?,
            start: 0,
            end: 0,
        })
    }
}

/// A reader with a buffer, which can be read in pieces.
pub trait BufRead: Sized {
    /// Returns the bytes that are read and not yet consumed. If there are none, it reads once.
    fn fill_buf(&mut self) -> Result<&[u8]>;

    fn consume(&mut self, count: usize);

    /// Appends the bytes up to and including the next `byte` to the list, or all remaining bytes. After an error, the bytes that
    /// were read stay in the list.
    fn read_until<B: Allocator>(&mut self, byte: u8, list: &mut Vec<u8, B>) -> Result<()> {
        loop {
            let ready = match self.fill_buf() {
                Ok(ready) => ready,
                Err(error) if error.kind == ErrorKind::Interrupted => continue,
                Err(error) => return Err(error),
            };
            let at = ready.iter().position(|&each| each == byte);
            let count = at.map_or(ready.len(), |at| at + 1);
            list.extend_from_slice(&ready[..count])?;
            self.consume(count);
            if at.is_some() || count == 0 {
                return Ok(());
            }
        }
    }

    /// Returns an iterator over the pieces of the reader between the bytes `byte`.
    fn split<B: Allocator>(self, alloc: B, byte: u8) -> Split<Self, B> {
        Split {
            inner: self,
            alloc,
            byte,
            has_ended: false,
        }
    }

    /// Returns an iterator over the lines of the reader, without the line ends `\n` and `\r\n`.
    fn lines<B: Allocator>(self, alloc: B) -> Lines<Self, B> {
        Lines(self.split(alloc, b'\n'))
    }
}

impl<R: Read, A: Allocator> BufRead for BufReader<R, A> {
    fn fill_buf(&mut self) -> Result<&[u8]> {
        if self.start == self.end {
            (self.start, self.end) = (0, 0);
            self.end = self.inner.read(self.bytes.as_mut_slice())?;
        }
        Ok(&self.bytes[self.start..self.end])
    }

    fn consume(&mut self, count: usize) {
        self.start += count.min(self.end - self.start);
    }
}

/// An iterator over the pieces of a reader. If reading a piece fails, the iterator returns the error in place of the piece. After
/// an allocation failure it ends, because the rest of the piece would look like a whole piece.
pub struct Split<R, B: Allocator> {
    inner: R,
    alloc: B,
    byte: u8,
    has_ended: bool,
}

impl<R: BufRead, B: Allocator> Split<R, B> {
    /// Returns the next piece, and whether the separating byte followed it.
    fn next_piece(&mut self) -> Option<Result<(Vec<u8, B>, bool)>> {
        if self.has_ended {
            return None;
        }
        let mut piece = Vec::new(self.alloc);
        if let Err(error) = self.inner.read_until(self.byte, &mut piece) {
            self.has_ended = error.kind == ErrorKind::OutOfMemory;
            return Some(Err(error));
        }
        let has_end = *piece.last()? == self.byte;
        if has_end {
            piece.pop();
        }
        Some(Ok((piece, has_end)))
    }
}

impl<R: BufRead, B: Allocator> Iterator for Split<R, B> {
    type Item = Result<Vec<u8, B>>;

    fn next(&mut self) -> Option<Self::Item> {
        Some(self.next_piece()?.map(|(piece, _)| piece))
    }
}

/// An iterator over the lines of a reader, with the same rules for errors as `Split`.
pub struct Lines<R, B: Allocator>(Split<R, B>);

impl<R: BufRead, B: Allocator> Iterator for Lines<R, B> {
    type Item = Result<String<B>>;

    fn next(&mut self) -> Option<Self::Item> {
        Some(self.0.next_piece()?.and_then(|(mut line, has_end)| {
            if has_end && line.last() == Some(&b'\r') {
                line.pop();
            }
            text_of(line)
        }))
    }
}

/// A buffered writer, which makes fewer calls of the inner writer. Only the program `rl_rows` uses it. The buffered bytes are
/// written when it is dropped.
pub struct BufWriter<W: Write, A: Allocator> {
    inner: W,
    held: Vec<u8, A>,
}

impl<W: Write, A: Allocator> BufWriter<W, A> {
    pub fn new(alloc: A, inner: W) -> Result<BufWriter<W, A>> {
        Ok(BufWriter {
            inner,
            held: Vec::with_capacity(alloc, AHEAD)?,
        })
    }

    /// Writes the buffered bytes. After an error, the bytes that weren't written are still buffered.
    fn pass_on(&mut self) -> Result<()> {
        let mut written = 0;
        let mut end = Ok(());
        while end.is_ok() && written < self.held.len() {
            match write_uninterrupted(&mut self.inner, &self.held[written..]) {
                Ok(0) => end = Err(Error::of(ErrorKind::WriteZero)),
                Ok(count) => written += count,
                Err(error) => end = Err(error),
            }
        }
        self.held.items.drain(..written);
        end
    }

    /// Adds the bytes to the buffer. They must be fewer than the size of the whole buffer.
    fn hold(&mut self, bytes: &[u8]) -> Result<()> {
        if bytes.len() > AHEAD - self.held.len() {
            self.pass_on()?;
        }
        self.held.items.extend_from_slice(bytes);
        Ok(())
    }
}

impl<W: Write, A: Allocator> Write for BufWriter<W, A> {
    fn write(&mut self, bytes: &[u8]) -> Result<usize> {
        if bytes.len() >= AHEAD {
            self.pass_on()?;
            return self.inner.write(bytes);
        }
        self.hold(bytes)?;
        Ok(bytes.len())
    }

    fn flush(&mut self) -> Result<()> {
        self.pass_on()?;
        self.inner.flush()
    }

    fn write_all(&mut self, bytes: &[u8]) -> Result<()> {
        if bytes.len() >= AHEAD {
            self.pass_on()?;
            return self.inner.write_all(bytes);
        }
        self.hold(bytes)
    }
}

impl<W: Write, A: Allocator> Drop for BufWriter<W, A> {
    fn drop(&mut self) {
        // An error can't be reported while the writer is dropped.
        let _ = self.pass_on();
    }
}
