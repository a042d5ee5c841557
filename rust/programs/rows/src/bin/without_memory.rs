//! Makes calls of `rattle_std` without memory. The tests of `tests/rattle_std/room.rs` run this program.
//!
//! It is called `without_memory TEST PATH` with the name of a test, and a path of more than 512 bytes of a directory that
//! contains a file. The system must limit the program to less than 256 MB. The exit status is 0 if each call returned the error
//! for too little memory.
//!
//! The program has one thread. In a test program, the thread that waits for the test may need memory while there is none, and
//! then Rust ends the process.

use navyspindle_programs::rattle_std::env::{self, VarError};
use navyspindle_programs::rattle_std::fs::{
    canonicalize, metadata, remove_file, rename, symlink_metadata, File,
};
use navyspindle_programs::rattle_std::io::{ErrorKind, Read, Result, Stdin, Stdout, Write};
use navyspindle_programs::rattle_std::rt::{Files, HostRuntime};
use std::{hint, mem, process};

/// The most bytes that the program allocates.
const MOST: usize = 1 << 28;

/// Allocates blocks until no block of `least` bytes is left.
fn take_all(least: usize) {
    let mut size = 1 << 24;
    let mut taken = 0;
    while size >= least {
        let mut block = Vec::<u8>::new();
        if block.try_reserve_exact(size).is_ok() {
            mem::forget(hint::black_box(block));
            taken += size;
            assert!(taken <= MOST, "the memory has no limit");
        } else {
            size /= 2;
        }
    }
}

/// Whether a call wasn't made because there is too little memory. An error of the system would have an error number.
fn lacks_room<T>(answer: Result<T>) -> bool {
    matches!(answer, Err(error) if error.kind() == ErrorKind::OutOfMemory && error.raw_os_error().is_none())
}

/// Whether no call that copies a path or a name is made.
fn copies_nothing(path: &str) -> bool {
    let rt = HostRuntime::new();
    let Ok(mut entries) = rt.open_dir(path) else {
        panic!("{path} is listed")
    };
    take_all(1);
    lacks_room(File::open(&rt, path))
        && lacks_room(metadata(&rt, path))
        && lacks_room(symlink_metadata(&rt, path))
        && lacks_room(canonicalize(&rt, path))
        && lacks_room(rename(&rt, path, path))
        && lacks_room(remove_file(&rt, path))
        && lacks_room(entries.read(&mut [0; 256]))
        && matches!(env::var(&rt, "PATH"), Err(VarError::OutOfMemory))
}

/// Whether standard input and output aren't used.
fn uses_no_stream() -> bool {
    take_all(1);
    lacks_room(Stdout.write_all(b"a")) && lacks_room(Stdin.read(&mut [0]))
}

/// Whether no directory is opened. The system needs some 32 KB for an open directory.
fn lists_nothing(path: &str) -> bool {
    take_all(20_000);
    lacks_room(HostRuntime::new().open_dir(path))
}

fn main() {
    let mut arguments = std::env::args().skip(1);
    let test = arguments.next().expect("the name of a test");
    let path = arguments.next().expect("a directory");
    let is_right = match test.as_str() {
        "copies_nothing" => copies_nothing(&path),
        "uses_no_stream" => uses_no_stream(),
        "lists_nothing" => lists_nothing(&path),
        _ => panic!("{test} is no test"),
    };
    // Returning from `main` might need memory.
    process::exit(i32::from(!is_right));
}
