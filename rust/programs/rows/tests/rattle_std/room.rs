//! Tests that calls of Rust's std that end the process without memory are made only if there is enough memory. The program
//! `without_memory` uses up its memory and makes the calls.

use crate::directory::Directory;
use std::fs;
use std::process::{Command, Stdio};

/// A shell command that runs its arguments as a program with 200 MB of memory.
const WITH_LITTLE: &str = "ulimit -v 200000 && exec \"$0\" \"$@\"";

/// Runs `without_memory` on a directory that contains a file.
fn assert_lacks_room(test: &str) {
    let here = Directory::new("rattle_std", test);
    fs::write(here.join("file"), "").expect("the file can be written");
    // Rust doesn't copy a shorter path to the heap.
    let path = format!("{}{}", here.to_str().expect("a text"), "/.".repeat(300));
    let ran = Command::new("sh")
        .args(["-c", WITH_LITTLE, env!("CARGO_BIN_EXE_without_memory")])
        .args([test, &path])
        .stdin(Stdio::null())
        .output()
        .expect("there is a shell");
    let said = String::from_utf8_lossy(&ran.stderr);
    assert!(ran.status.success(), "{:?}: {said}", ran.status);
}

#[test]
fn nothing_is_copied_without_room() {
    assert_lacks_room("copies_nothing");
}

#[test]
fn streams_are_not_used_without_room() {
    assert_lacks_room("uses_no_stream");
}

#[test]
fn no_directory_is_listed_without_room() {
    assert_lacks_room("lists_nothing");
}
