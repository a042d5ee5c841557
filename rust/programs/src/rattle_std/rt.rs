//! A replacement for Rattle's `std::rt`, and for `Alloc` of its prelude: the handles that a program receives. A handle determines
//! which parts of the system the program can reach.
//!
//! It is more limited than Rattle's module: `Files` has only two methods, since `fs` has only one file system. Rattle's `Files` has
//! a method for each call.

use super::alloc::{Allocator, Global};
use super::fs::{Dir, File, OpenFile};
use super::io::{Read, Result, Stderr, Stdin, Stdout, Write};

/// A handle that gives access to an allocator.
pub trait Alloc {
    type A: Allocator;

    fn alloc(&self) -> Self::A;
}

/// A handle that gives access to files and directories.
pub trait Files {
    type File: Read + Write + OpenFile;

    type Dir: Read;

    /// Opens the directory at the path. It is read as the names in it, each ended by a NUL.
    fn open_dir(&self, path: &str) -> Result<Self::Dir>;

    /// Converts an open file of the system to the file type of this handle.
    fn opened(&self, file: File) -> Self::File;
}

/// The handle that gives access to everything that a program may reach.
#[derive(Clone)]
pub struct HostRuntime(());

impl HostRuntime {
    /// Creates the handle for a `main` function that Cargo builds. In Rattle, `main` receives it as an argument.
    #[allow(clippy::new_without_default)]
    pub fn new() -> HostRuntime {
        HostRuntime(())
    }

    pub fn alloc(&self) -> Global {
        Global
    }

    /// Returns the reader of standard input, like the method of `Input`.
    pub fn reader(&self) -> Stdin {
        Stdin
    }

    pub fn stdin(&self) -> Stdin {
        Stdin
    }

    pub fn stdout(&self) -> Stdout {
        Stdout
    }

    pub fn stderr(&self) -> Stderr {
        Stderr
    }
}

impl Alloc for HostRuntime {
    type A = Global;

    fn alloc(&self) -> Global {
        Global
    }
}

impl Files for HostRuntime {
    type File = File;

    type Dir = Dir;

    fn open_dir(&self, path: &str) -> Result<Dir> {
        Dir::open(path)
    }

    fn opened(&self, file: File) -> File {
        file
    }
}
