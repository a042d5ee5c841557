//! A replacement for Rattle's `std::fs`: reading files, creating and renaming files, and listing directories. Paths are texts, and
//! the names in a directory are bytes.
//!
//! It is more limited than Rattle's module: there is one file system, and files are opened only in the ways that the sources need.
//! Rust's own calls that copy a path or a name end the process if there is no memory for the copy. So the available memory is
//! checked before each of these calls.

use super::alloc::has_room;
use super::io::{Error, ErrorKind, Read, Result, Write};
use super::path::PathBuf;
use super::rt::{Alloc, Files};
use super::string::String;
use std::fs::FileType;
use std::io::{Read as _, Write as _};
use std::os::unix::ffi::OsStrExt;
use std::path::PathBuf as PathOfStd;
use std::sync::{Mutex, PoisonError};

pub use std::fs::{Metadata, Permissions};

/// The numbers of bytes that a memory check reserves. `PATH` is the longest path that Linux accepts. `NAME` is more than the
/// longest name that it accepts. `DIRECTORY` is more than an open directory needs before its path is copied.
const PATH: usize = 4096;
const NAME: usize = 1024;
const DIRECTORY: usize = 40_000;

/// Returns the path, or an error if there is no memory for a copy of it.
pub(super) fn copied(path: &str) -> Result<&str> {
    if has_room(path.len() + NAME) {
        Ok(path)
    } else {
        Err(Error::of(ErrorKind::OutOfMemory))
    }
}

/// An open file.
pub struct File(std::fs::File);

impl File {
    /// Opens the file at the path for reading. A directory can be opened too, but then the first read fails.
    pub fn open<R: Files>(_rt: &R, path: &str) -> Result<File> {
        Ok(File(std::fs::File::open(copied(path)?)?))
    }
}

impl Read for File {
    fn read(&mut self, buf: &mut [u8]) -> Result<usize> {
        Ok(self.0.read(buf)?)
    }
}

impl Write for File {
    fn write(&mut self, bytes: &[u8]) -> Result<usize> {
        Ok(self.0.write(bytes)?)
    }
}

/// The methods of an open file.
pub trait OpenFile {
    fn metadata(&self) -> Result<Metadata>;

    fn set_permissions(&self, permissions: Permissions) -> Result<()>;

    /// Waits until all written bytes are stored.
    fn sync_all(&self) -> Result<()>;
}

impl OpenFile for File {
    fn metadata(&self) -> Result<Metadata> {
        Ok(self.0.metadata()?)
    }

    fn set_permissions(&self, permissions: Permissions) -> Result<()> {
        Ok(self.0.set_permissions(permissions)?)
    }

    fn sync_all(&self) -> Result<()> {
        Ok(self.0.sync_all()?)
    }
}

/// The options with which a file is opened.
pub struct OpenOptions(pub(super) std::fs::OpenOptions);

impl OpenOptions {
    /// Creates options that permit neither reading nor writing.
    #[allow(clippy::new_without_default)]
    pub fn new() -> OpenOptions {
        OpenOptions(std::fs::OpenOptions::new())
    }

    pub fn write(&mut self, write: bool) -> &mut OpenOptions {
        self.0.write(write);
        self
    }

    /// Sets whether the file is opened for writing at its end. Nothing is written or created by opening it.
    pub fn append(&mut self, append: bool) -> &mut OpenOptions {
        self.0.append(append);
        self
    }

    /// Sets whether the call creates the file, and fails if the path already exists.
    pub fn create_new(&mut self, create_new: bool) -> &mut OpenOptions {
        self.0.create_new(create_new);
        self
    }

    pub fn open<R: Files>(&self, rt: &R, path: &str) -> Result<R::File> {
        Ok(rt.opened(File(self.0.open(copied(path)?)?)))
    }
}

/// Returns the system's data about the file at the path. If the path is a link, they are about its target.
pub fn metadata<R: Files>(_rt: &R, path: &str) -> Result<Metadata> {
    Ok(std::fs::metadata(copied(path)?)?)
}

/// The path and the type of the file that a directory listed last.
static LISTED: Mutex<Option<(PathOfStd, FileType)>> = Mutex::new(None);

/// Replaces the path and the type in `LISTED`, and returns the replaced ones.
fn listed(new: Option<(PathOfStd, FileType)>) -> Option<(PathOfStd, FileType)> {
    let mut last = LISTED.lock().unwrap_or_else(PoisonError::into_inner);
    std::mem::replace(&mut last, new)
}

/// Returns the type of the file at the path. If the path is a link, it is the type of the link itself. Rattle's function returns all
/// of the system's data about the file.
///
/// The system isn't asked if a directory has listed this file directly before.
pub fn symlink_metadata<R: Files>(_rt: &R, path: &str) -> Result<FileType> {
    match listed(None) {
        Some((listed, kind)) if listed.as_os_str() == path => Ok(kind),
        _ => Ok(std::fs::symlink_metadata(copied(path)?)?.file_type()),
    }
}

/// Returns the absolute path of the file, with all links resolved.
pub fn canonicalize<R: Files + Alloc>(rt: &R, path: &str) -> Result<PathBuf<R::A>> {
    if !has_room(path.len() + PATH) {
        return Err(Error::of(ErrorKind::OutOfMemory));
    }
    let path = std::fs::canonicalize(path)?;
    match path.to_str() {
        Some(path) => Ok(PathBuf::of(String::from_str(rt.alloc(), path)?)),
        None => Err(Error::of(ErrorKind::InvalidFilename)),
    }
}

/// Renames the file at `from` to `to`. A file at `to` is replaced.
pub fn rename<R: Files>(_rt: &R, from: &str, to: &str) -> Result<()> {
    if !has_room(from.len() + to.len() + NAME) {
        return Err(Error::of(ErrorKind::OutOfMemory));
    }
    Ok(std::fs::rename(from, to)?)
}

pub fn remove_file<R: Files>(_rt: &R, path: &str) -> Result<()> {
    Ok(std::fs::remove_file(copied(path)?)?)
}

/// An open directory. It is read as the names in it, except `.` and `..`, each ended by a NUL.
///
/// A read returns one name. Rattle's reads return as many names as the buffer has room for, also `.` and `..`. If the directory is
/// removed, there are no more names.
pub struct Dir<I = std::fs::ReadDir> {
    entries: I,
    /// The number of bytes that a memory check reserves for the path of an entry.
    room: usize,
}

/// The system's error number of a read into a buffer that is too short for the next name.
const TOO_SHORT: i32 = 22;

impl Dir {
    /// Opens the directory at the path, or returns an error if there is no memory for two copies of the path.
    pub(super) fn open(path: &str) -> Result<Dir> {
        if !has_room(2 * path.len() + DIRECTORY) {
            return Err(Error::of(ErrorKind::OutOfMemory));
        }
        Ok(Dir {
            entries: std::fs::read_dir(path)?,
            room: path.len() + 2 * NAME,
        })
    }
}

impl<I> Dir<I> {
    /// Returns a directory with the given entries, for tests.
    pub fn of(entries: I) -> Dir<I> {
        Dir { entries, room: 0 }
    }
}

impl<I: Iterator<Item = std::io::Result<std::fs::DirEntry>>> Read for Dir<I> {
    fn read(&mut self, buf: &mut [u8]) -> Result<usize> {
        if !has_room(self.room) {
            return Err(Error::of(ErrorKind::OutOfMemory));
        }
        let Some(entry) = self.entries.next() else {
            return Ok(0);
        };
        let entry = entry?;
        listed(entry.file_type().ok().map(|kind| (entry.path(), kind)));
        let name = entry.file_name();
        let name = name.as_bytes();
        let Some(room) = buf.get_mut(..=name.len()) else {
            return Err(std::io::Error::from_raw_os_error(TOO_SHORT).into());
        };
        room[..name.len()].copy_from_slice(name);
        room[name.len()] = 0;
        Ok(room.len())
    }
}
