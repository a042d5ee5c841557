//! A replacement for Rattle's `std::env`: a program's arguments, and its environment variables.
//!
//! It is more limited than Rattle's module: arguments and variables are always those of this process. Rust's own calls copy them,
//! and end the process if there is no memory for the copy. That can happen for arguments, and for a variable of more than 4 KB.

use super::alloc::{has_room, AllocError, Global};
use super::io;
use super::rt::HostRuntime;
use super::string::String;
use super::vec::{IntoIter, Vec};
use std::env;
use std::ffi::OsString;
use std::os::unix::ffi::OsStrExt;
use std::sync::OnceLock;

/// The arguments, which are copied once.
static ALL: OnceLock<std::vec::Vec<OsString>> = OnceLock::new();

/// The reason why a value isn't copied to a buffer.
pub enum FillError {
    /// There is no such value.
    NotPresent,
    /// The value is longer than the buffer.
    TooLong,
}

/// Access to the arguments.
pub trait Env {
    /// Copies the argument with the number `i` to the start of `buf`, and returns its length. Argument 0 is the program's name.
    fn arg(&self, i: usize, buf: &mut [u8]) -> Result<usize, FillError>;
}

impl Env for HostRuntime {
    fn arg(&self, i: usize, buf: &mut [u8]) -> Result<usize, FillError> {
        let all = ALL.get_or_init(|| env::args_os().collect());
        let arg = all.get(i).ok_or(FillError::NotPresent)?.as_bytes();
        let place = buf.get_mut(..arg.len()).ok_or(FillError::TooLong)?;
        place.copy_from_slice(arg);
        Ok(arg.len())
    }
}

/// An iterator over a program's arguments.
pub type Args = IntoIter<String>;

/// Returns the arguments, beginning with the program's name. The call fails if any argument isn't UTF-8.
pub fn args(_rt: &HostRuntime) -> io::Result<Args> {
    let mut all = Vec::new(Global);
    for arg in env::args_os() {
        let Some(text) = arg.to_str() else {
            return Err(io::Error::of(io::ErrorKind::InvalidData));
        };
        all.push(String::from_str(Global, text)?)?;
    }
    Ok(all.into_iter())
}

/// The reason why a variable has no value, or why its value can't be returned.
pub enum VarError {
    NotPresent,
    NotUnicode,
    OutOfMemory,
}

impl From<AllocError> for VarError {
    fn from(_: AllocError) -> VarError {
        VarError::OutOfMemory
    }
}

/// The number of bytes of a variable's value for which memory is checked before the value is copied.
const VALUE: usize = 4096;

/// Returns the value of the environment variable `name`.
pub fn var(_rt: &HostRuntime, name: &str) -> Result<String, VarError> {
    if !has_room(VALUE + name.len()) {
        return Err(VarError::OutOfMemory);
    }
    match env::var_os(name) {
        None => Err(VarError::NotPresent),
        Some(value) => match value.to_str() {
            Some(text) => Ok(String::from_str(Global, text)?),
            None => Err(VarError::NotUnicode),
        },
    }
}
