//! Tests reading files in pieces, and the replacement of whole files, in the file system and in a directory in memory.
//! `tools/fixing.py` has more tests with the file system.
#![cfg(target_os = "linux")]

#[path = "directory/mod.rs"]
mod directory;

use directory::Directory;
use navyspindle_programs::rattle_std::alloc::Global;
use navyspindle_programs::rattle_std::rt::HostRuntime;
use navyspindle_programs::rattle_std::vec::Vec as List;
use navyspindle_programs::rl_files::{
    Host, MemoryReplacements, PathError, Replace, Tree, Unwritable,
};
use std::fs;
use std::os::unix::fs::{symlink, PermissionsExt};
use std::path::Path;

const RIGHTS: &str = "its permissions or access control list could change";
const NAMES: &str = "its temporary names `.rl_scan-0` to `.rl_scan-99` are in use";

/// Creates an empty directory for the test `name`.
fn directory(name: &str) -> Directory {
    Directory::new("replacing", name)
}

/// Replaces the file at the path. Returns the error message, or an empty text if the file is replaced.
fn replaced(path: &str, old: &[u8], new: &[u8]) -> String {
    let rt = HostRuntime::new();
    match (Host { rt: &rt }).replace(Global, path, old, new) {
        Ok(()) => String::new(),
        Err(why) => why.to_string(),
    }
}

fn names_in(directory: &Path) -> Vec<String> {
    let entries = fs::read_dir(directory).expect("the directory is there");
    let name_of = |entry: fs::DirEntry| entry.file_name().to_string_lossy().into_owned();
    let mut names: Vec<String> = entries.flatten().map(name_of).collect();
    names.sort();
    names
}

#[test]
fn a_file_gets_its_new_bytes() {
    let here = directory("new");
    let path = here.join("a.rs");
    fs::write(&path, "1").expect("the file can be written");
    fs::set_permissions(&path, fs::Permissions::from_mode(0o755)).expect("it can be changed");
    symlink("a.rs", here.join("b.rs")).expect("the link can be made");
    let link = here.join("b.rs");
    assert_eq!(replaced(link.to_str().expect("a text"), b"1", b"22"), "");
    assert_eq!(fs::read(&path).expect("the file is there"), b"22");
    let mode = fs::metadata(&path).expect("it is there").permissions();
    assert_eq!(mode.mode() & 0o7777, 0o755);
    assert!(link.is_symlink());
    assert_eq!(names_in(&here), ["a.rs", "b.rs"]);
}

#[test]
fn what_is_not_replaced_stays() {
    let here = directory("kept");
    let path = here.join("a.rs");
    fs::write(&path, "1").expect("the file can be written");
    let path = path.to_str().expect("a text");
    assert_eq!(replaced(path, b"2", b"3"), "changed since it was read");
    assert_eq!(replaced(path, b"11", b"3"), "changed since it was read");
    fs::set_permissions(path, fs::Permissions::from_mode(0o555)).expect("it can be changed");
    assert_eq!(replaced(path, b"1", b"3"), "permission denied");
    for mode in [0o4755, 0o2755, 0o1644] {
        fs::set_permissions(path, fs::Permissions::from_mode(mode)).expect("it can be changed");
        assert_eq!(replaced(path, b"1", b"3"), RIGHTS);
        let about = fs::metadata(path).expect("the file is there");
        assert_eq!(about.permissions().mode() & 0o7777, mode);
    }
    fs::set_permissions(path, fs::Permissions::from_mode(0o644)).expect("it can be changed");
    fs::hard_link(path, here.join("b.rs")).expect("the link can be made");
    assert_eq!(replaced(path, b"1", b"3"), "has other hard links");
    fs::remove_file(here.join("b.rs")).expect("the link can be removed");
    for number in 0..100 {
        fs::write(format!("{path}.rl_scan-{number}"), "").expect("the file can be written");
    }
    assert_eq!(replaced(path, b"1", b"3"), NAMES);
    for number in 0..100 {
        fs::remove_file(format!("{path}.rl_scan-{number}")).expect("the file can be removed");
    }
    assert_eq!(fs::read(path).expect("the file is there"), b"1");
    assert_eq!(names_in(&here), ["a.rs"]);
    let here = here.to_str().expect("a text");
    assert_eq!(replaced(here, b"", b"3"), "is a directory");
    let missing = format!("{here}/no.rs");
    assert_eq!(replaced(&missing, b"", b"3"), "no such file or directory");
    assert_eq!(replaced("-", b"", b"3"), "not a regular file");
    assert_eq!(replaced("/dev/null", b"", b"3"), "not a regular file");
}

#[test]
fn what_is_read_can_be_replaced() {
    let here = directory("read");
    let path = here.join("a.rs");
    fs::write(&path, "a\0\u{ff}").expect("the file can be written");
    let path = path.to_str().expect("a text");
    let rt = HostRuntime::new();
    let mut host = Host { rt: &rt };
    let Ok(old) = host.bytes(Global, path) else {
        panic!("the file can be read");
    };
    assert!(host.replace(Global, path, old.as_slice(), b"").is_ok());
    assert_eq!(fs::read(path).expect("the file is there"), b"");
}

/// Returns the result of reading the file at the path as a text: the number of its bytes, or the error message.
fn read(path: &str) -> String {
    let rt = HostRuntime::new();
    match (Host { rt: &rt }).bytes(Global, path) {
        Ok(bytes) => bytes.len().to_string(),
        Err(why) => why.to_string(),
    }
}

#[test]
fn a_text_is_read_in_pieces() {
    let here = directory("pieces");
    let path = here.join("a.rs");
    let path = path.to_str().expect("a text");
    // Some piece ends after the first byte of a character. A text is tested once it has 256 KB, and then at 16 MB.
    let mut text = format!("a{}", "\u{e9}".repeat(600_000)).into_bytes();
    fs::write(path, &text).expect("the file can be written");
    assert_eq!(read(path), "1200001");
    text[70_001] = b'b';
    fs::write(path, &text).expect("the file can be written");
    assert_eq!(read(path), "not UTF-8 at byte 70002");
    let rt = HostRuntime::new();
    let bytes = (Host { rt: &rt }).any_bytes(Global, path);
    assert!(bytes.is_ok_and(|bytes| bytes.as_slice() == text));
    // This device has no end. Its first random bytes are hardly UTF-8.
    let random = read("/dev/urandom");
    assert!(random.starts_with("not UTF-8 at byte "), "{random}");
}

#[test]
fn memory_keeps_what_is_handed_to_it() {
    let unwritable = [
        Unwritable {
            path: "b.rs",
            why: PathError::PermissionDenied,
        },
        Unwritable {
            path: "b.rs",
            why: PathError::NoRoom,
        },
    ];
    let mut kept = MemoryReplacements {
        alloc: Global,
        unwritable: &unwritable,
        handed: List::new(Global),
    };
    assert!(kept.replace(Global, "a.rs", b"1", b"2").is_ok());
    let why = kept.replace(Global, "b.rs", b"1", b"2");
    assert!(matches!(why, Err(PathError::PermissionDenied)));
    assert!(kept.replace(Global, "a.rs", b"2", b"").is_ok());
    let handed: Vec<(&str, &[u8], &[u8])> = kept
        .handed
        .iter()
        .map(|file| (file.path.as_str(), file.old.as_slice(), file.new.as_slice()))
        .collect();
    let expected: [(&str, &[u8], &[u8]); 2] = [("a.rs", b"1", b"2"), ("a.rs", b"2", b"")];
    assert_eq!(handed, expected);
}
