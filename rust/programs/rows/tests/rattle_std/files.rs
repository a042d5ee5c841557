//! Tests files, directories and environment variables on Linux.

use crate::directory::Directory;
use crate::fakes::{text, told};
use crate::rattle_std::env::{self, VarError};
use crate::rattle_std::fs::{
    canonicalize, metadata, remove_file, rename, symlink_metadata, Dir, File, OpenFile,
    OpenOptions, Permissions,
};
use crate::rattle_std::io::{Error, ErrorKind, Read, Result, Write};
use crate::rattle_std::os::unix::fs::{chown, OpenOptionsExt};
use crate::rattle_std::rt::{Files, HostRuntime};
use std::ffi::OsStr;
use std::os::unix::ffi::OsStrExt;
use std::os::unix::fs::{symlink, MetadataExt, PermissionsExt};
use std::path::Path;
use std::{fs, io, vec};

/// Creates an empty directory for the test `name`.
fn directory(name: &str) -> Directory {
    Directory::new("rattle_std", name)
}

/// Shows the results of opening the path as a file, and of listing it as a directory.
fn both(path: &str) -> (String, String) {
    let rt = HostRuntime::new();
    let opened = told(File::open(&rt, path).map(|_| "opened"));
    (opened, told(rt.open_dir(path).map(|_| "listed")))
}

fn assert_both(path: &str, opened: &str, listed: &str) {
    let told = both(path);
    assert_eq!((told.0.as_str(), told.1.as_str()), (opened, listed));
}

fn assert_neither(path: &str, why: &str) {
    assert_both(path, why, why);
}

fn path_in(directory: &Path, name: &str) -> String {
    let path = directory.join(name);
    path.to_str().expect("the path is a text").to_owned()
}

const NO_PATH: &str = "Err(InvalidInput, None)";
const MISSING: &str = "Err(NotFound, Some(2))";
const NO_DIRECTORY: &str = "Err(NotADirectory, Some(20))";
const TOO_LONG: &str = "Err(InvalidFilename, Some(36))";

#[test]
fn paths_with_a_nul() {
    assert_neither("a\0b", NO_PATH);
    assert_neither("\0", NO_PATH);
}

#[test]
fn paths_to_nothing() {
    let here = directory("nothing");
    fs::write(here.join("file"), "fn").expect("the file can be written");
    symlink("nowhere", here.join("broken")).expect("the link can be made");
    symlink("loop", here.join("loop")).expect("the link can be made");
    assert_neither("", MISSING);
    assert_neither(&path_in(&here, "missing"), MISSING);
    assert_neither(&path_in(&here, "broken"), MISSING);
    assert_neither(&path_in(&here, "file/x"), NO_DIRECTORY);
    assert_neither(&path_in(&here, "file/"), NO_DIRECTORY);
    // Rattle's kind of this error is `FilesystemLoop`. The sources don't use that kind, so it is `Other` here.
    assert_neither(&path_in(&here, "loop"), "Err(Other, Some(40))");
}

#[test]
fn long_paths() {
    assert_neither(&path_in(&directory("long"), &"n".repeat(256)), TOO_LONG);
    let all = format!("/{}", "./".repeat(2048));
    let path = &all[..4094];
    assert_both(path, "Ok(\"opened\")", "Ok(\"listed\")");
    let path = format!("{}/.", &all[..4093]);
    assert_both(&path, "Ok(\"opened\")", "Ok(\"listed\")");
    assert_neither(&format!("{path}/"), TOO_LONG);
    assert_neither(&format!("{path}/\0"), NO_PATH);
}

#[test]
fn a_file_is_no_directory_and_a_directory_opens() {
    let here = directory("opens");
    fs::write(here.join("file"), "fn").expect("the file can be written");
    let path = path_in(&here, "file");
    assert_both(&path, "Ok(\"opened\")", NO_DIRECTORY);
    let here = path_in(&here, ".");
    assert_both(&here, "Ok(\"opened\")", "Ok(\"listed\")");

    let mut file = File::open(&HostRuntime::new(), &here).expect("a directory opens");
    assert_eq!(told(file.read(&mut [0; 9])), "Err(IsADirectory, Some(21))");
}

#[test]
fn files_in_parts() {
    let here = directory("parts");
    fs::write(here.join("file"), "fn f").expect("the file can be written");
    let rt = HostRuntime::new();
    let mut file = File::open(&rt, &path_in(&here, "file")).expect("the file opens");
    let len = file.metadata().map(|about| about.len());
    assert_eq!(told(len), "Ok(4)");
    for (part, count) in [("fn ", "Ok(3)"), ("f  ", "Ok(1)"), ("   ", "Ok(0)")] {
        let mut buf = *b"   ";
        assert_eq!(told(file.read(&mut buf)), count);
        assert_eq!(text(&buf), part);
    }
}

/// The type of a listed file is returned at most once without a call of the system, and never for another path.
#[test]
fn types_of_listed_files() {
    let here = directory("types");
    fs::create_dir(here.join("d")).expect("the directory can be made");
    fs::write(here.join("d/a"), "").expect("the file can be written");
    fs::create_dir(here.join("a")).expect("the directory can be made");
    let rt = HostRuntime::new();
    let is_dir = |path: &str| told(symlink_metadata(&rt, path).map(|kind| kind.is_dir()));
    let (inner, outer) = (path_in(&here, "d/a"), path_in(&here, "a"));
    let list = || {
        let mut names = opened(&path_in(&here, "d/"));
        assert_eq!(told(names.read(&mut [0; 9])), "Ok(2)");
    };
    list();
    assert_eq!(is_dir(&inner), "Ok(false)");
    list();
    assert_eq!(is_dir(&outer), "Ok(true)");
    list();
    let _ = is_dir(&inner);
    fs::remove_file(&inner).expect("the file can be removed");
    fs::create_dir(&inner).expect("the directory can be made");
    assert_eq!(is_dir(&inner), "Ok(true)");
}

/// Opens the directory at the path.
fn opened(path: &str) -> Dir {
    let Ok(opened) = HostRuntime::new().open_dir(path) else {
        panic!("{path} is listed")
    };
    opened
}

/// Returns the sorted names in a directory, as each read returns them.
fn listed(path: &str) -> vec::Vec<vec::Vec<u8>> {
    let mut names = vec::Vec::new();
    let mut directory = opened(path);
    let mut buf = [1; 256];
    while let Ok(count @ 1..) = directory.read(&mut buf) {
        names.push(buf[..count].to_vec());
    }
    names.sort();
    names
}

/// An error after the first name is an error of the second read, and not the end.
#[test]
fn an_error_in_the_middle_of_a_directory() {
    let here = directory("middle");
    fs::write(here.join("a"), "").expect("the file can be written");
    let entries = fs::read_dir(&*here).expect("the directory can be listed");
    let mut entries = Dir::of(entries.chain([Err(io::Error::other("odd"))]));
    let mut buf = [1; 256];
    assert!(matches!(entries.read(&mut buf), Ok(2)));
    assert!(entries.read(&mut buf).is_err());
    assert!(matches!(entries.read(&mut buf), Ok(0)));
}

#[test]
fn names_in_a_directory() {
    let here = directory("odd");
    fs::create_dir(here.join("dir")).expect("the directory can be made");
    fs::write(here.join("a"), "").expect("the file can be written");
    fs::write(here.join(OsStr::from_bytes(b"b\xff")), "").expect("the file can be written");
    symlink("nowhere", here.join("broken")).expect("the link can be made");
    let here = path_in(&here, "");
    for path in [&here, &format!("{here}//")] {
        let expected = [&b"a\0"[..], b"broken\0", b"b\xff\0", b"dir\0"];
        assert_eq!(listed(path), expected);
    }
}

/// A read returns only a whole name, so the buffer needs space for the name and its NUL.
#[test]
fn names_without_space() {
    let here = directory("space");
    let name = "n".repeat(255);
    fs::write(here.join(&name), "").expect("the file can be written");
    let here = path_in(&here, "");
    let read = |space: usize| told(opened(&here).read(&mut vec![0; space]));
    assert_eq!(read(0), "Err(InvalidInput, Some(22))");
    assert_eq!(read(255), "Err(InvalidInput, Some(22))");
    assert_eq!(read(256), "Ok(256)");
    assert_eq!(listed(&here), [format!("{name}\0").into_bytes()]);
}

#[test]
fn kinds_of_entries() {
    let here = directory("kinds");
    fs::create_dir(here.join("dir")).expect("the directory can be made");
    fs::write(here.join("file"), "1").expect("the file can be written");
    symlink("file", here.join("link")).expect("the link can be made");
    symlink("nowhere", here.join("broken")).expect("the link can be made");
    for (name, expected) in [
        ("broken", "Ok((false, false, true))"),
        ("dir", "Ok((true, false, false))"),
        ("file", "Ok((false, true, false))"),
        ("link", "Ok((false, false, true))"),
        ("no", MISSING),
    ] {
        let about = symlink_metadata(&HostRuntime::new(), &path_in(&here, name));
        let kind = about.map(|about| (about.is_dir(), about.is_file(), about.is_symlink()));
        assert_eq!(told(kind), expected, "{name}");
    }
}

/// If an open directory is removed, it has no more names.
#[test]
fn a_directory_that_vanishes() {
    let here = directory("vanishes");
    let path = path_in(&here, "inner");
    fs::create_dir(&path).expect("the directory can be made");
    fs::write(here.join("inner/a"), "x").expect("the file can be written");
    let mut buf = [1; 256];
    let mut inner = opened(&path);
    assert_eq!(told(inner.read(&mut buf)), "Ok(2)");
    assert_eq!(&buf[..3], b"a\0\x01");
    fs::remove_dir_all(&path).expect("the directory can be removed");
    assert_eq!(told(inner.read(&mut buf)), "Ok(0)");
    assert_neither(&path, MISSING);

    fs::create_dir(&path).expect("the directory can be made");
    let mut inner = opened(&path);
    fs::remove_dir(&path).expect("the directory can be removed");
    assert_eq!(told(inner.read(&mut buf)), "Ok(0)");
    assert_eq!(told(inner.read(&mut buf)), "Ok(0)");
}

/// This test must run as a user other than root, because root may do everything.
#[test]
fn what_is_denied() {
    let here = directory("denied");
    let deny = |name: &str, mode| {
        fs::set_permissions(here.join(name), fs::Permissions::from_mode(mode))
            .expect("the permissions can be set");
    };
    for name in ["unlistable", "unsearchable"] {
        fs::create_dir(here.join(name)).expect("the directory can be made");
    }
    for name in ["unreadable", "unsearchable/a"] {
        fs::write(here.join(name), "").expect("the file can be written");
    }
    deny("unreadable", 0);
    deny("unlistable", 0);
    deny("unsearchable", 0o444);
    if fs::metadata(here.join("unsearchable/a")).is_err() {
        let denied = "Err(PermissionDenied, Some(13))";
        assert_both(&path_in(&here, "unreadable"), denied, NO_DIRECTORY);
        assert_neither(&path_in(&here, "unlistable"), denied);
        assert_neither(&path_in(&here, "unsearchable/a"), denied);
        assert_eq!(listed(&path_in(&here, "unsearchable")), [b"a\0"]);
    }
    deny("unlistable", 0o755);
    deny("unsearchable", 0o755);
}

#[test]
fn variables_that_are_not_there() {
    let rt = HostRuntime::new();
    for name in ["NAVYSPINDLE_HAS_NO_SUCH", "", "=", "A=B", "a\0b"] {
        let value = env::var(&rt, name);
        assert!(matches!(value, Err(VarError::NotPresent)), "{name:?}");
    }
}

#[test]
fn variables_that_are_not_texts() {
    let rt = HostRuntime::new();
    std::env::set_var("NAVYSPINDLE_NO_TEXT", OsStr::from_bytes(b"a\xff"));
    let value = env::var(&rt, "NAVYSPINDLE_NO_TEXT");
    assert!(matches!(value, Err(VarError::NotUnicode)));
    std::env::set_var("NAVYSPINDLE_TEXT", "a\u{e9}");
    let value = env::var(&rt, "NAVYSPINDLE_TEXT");
    assert!(value.is_ok_and(|value| value.as_str() == "a\u{e9}"));
}

/// Tests the conversion of Linux's error numbers to Rattle's kinds of errors. Kinds that the sources don't use are `Other`.
#[test]
fn kinds_of_the_systems_errors() {
    for (number, kind) in [
        (1, ErrorKind::PermissionDenied),
        (2, ErrorKind::NotFound),
        (4, ErrorKind::Interrupted),
        (12, ErrorKind::OutOfMemory),
        (13, ErrorKind::PermissionDenied),
        (17, ErrorKind::AlreadyExists),
        (20, ErrorKind::NotADirectory),
        (21, ErrorKind::IsADirectory),
        (22, ErrorKind::InvalidInput),
        (27, ErrorKind::Other),
        (28, ErrorKind::StorageFull),
        (30, ErrorKind::ReadOnlyFilesystem),
        (32, ErrorKind::BrokenPipe),
        (36, ErrorKind::InvalidFilename),
        (39, ErrorKind::Other),
        (40, ErrorKind::Other),
        (122, ErrorKind::Other),
        (9999, ErrorKind::Other),
    ] {
        let error = Error::from(io::Error::from_raw_os_error(number));
        assert_eq!((error.kind(), error.raw_os_error()), (kind, Some(number)));
    }
}

/// Tests the conversion of errors of Rust's std that don't come from the system.
#[test]
fn kinds_of_stds_errors() {
    for (theirs, kind) in [
        (io::ErrorKind::InvalidInput, ErrorKind::InvalidInput),
        (io::ErrorKind::InvalidData, ErrorKind::InvalidData),
        (io::ErrorKind::WriteZero, ErrorKind::WriteZero),
        (io::ErrorKind::OutOfMemory, ErrorKind::OutOfMemory),
        (io::ErrorKind::UnexpectedEof, ErrorKind::Other),
        (io::ErrorKind::Other, ErrorKind::Other),
    ] {
        let error = Error::from(io::Error::from(theirs));
        assert_eq!((error.kind(), error.raw_os_error()), (kind, None));
    }
}

/// Shows the result of creating a new file at the path.
fn made(path: &str) -> String {
    let rt = HostRuntime::new();
    let mut options = OpenOptions::new();
    let options = options.write(true).create_new(true).mode(0o600);
    told(options.open(&rt, path).map(|_| "made"))
}

/// Tests that opening a file at its end neither changes nor creates it.
#[test]
fn files_that_are_opened_at_their_end() {
    let here = directory("end");
    let path = path_in(&here, "old");
    fs::write(&path, "ab").expect("the file can be written");
    let rt = HostRuntime::new();
    let open = |path: &str| OpenOptions::new().append(true).open(&rt, path);
    assert_eq!(told(open(&path).map(|_| "opened")), "Ok(\"opened\")");
    assert_eq!(fs::read(&path).expect("the file is there"), b"ab");
    let Ok(mut file) = open(&path) else {
        panic!("{path} opens")
    };
    assert_eq!(told(file.write(b"c")), "Ok(1)");
    assert_eq!(fs::read(&path).expect("the file is there"), b"abc");
    let new = path_in(&here, "new");
    assert_eq!(told(open(&new).map(|_| "opened")), MISSING);
    assert!(!Path::new(&new).exists());
}

#[test]
fn files_that_are_made() {
    let here = directory("made");
    let path = path_in(&here, "new");
    assert_eq!(made(&path), "Ok(\"made\")");
    assert_eq!(made(&path), "Err(AlreadyExists, Some(17))");
    assert_eq!(made(&path_in(&here, "no/new")), MISSING);
    assert_eq!(made("n\0"), NO_PATH);
    let rt = HostRuntime::new();
    let about = metadata(&rt, &path).expect("the file is there");
    assert_eq!(about.permissions().mode() & 0o777, 0o600);
}

#[test]
fn files_that_are_filled() {
    let here = directory("filled");
    let path = path_in(&here, "file");
    let rt = HostRuntime::new();
    let mut options = OpenOptions::new();
    let options = options.write(true).create_new(true);
    let mut file = options.open(&rt, &path).expect("the file can be made");
    file.write_all(b"fn").expect("the file can be written");
    file.set_permissions(Permissions::from_mode(0o640))
        .expect("the file can be changed");
    file.sync_all().expect("the file can be stored");
    assert_eq!(fs::read(&path).expect("the file is there"), b"fn");
    let about = metadata(&rt, &path).expect("the file is there");
    assert_eq!(about.permissions().mode() & 0o7777, 0o640);
}

/// Shows the result of `ask` on a file that is opened for writing, or the error of opening it.
fn of_device(path: &str, ask: impl Fn(&mut File) -> Result<()>) -> String {
    let rt = HostRuntime::new();
    match OpenOptions::new().write(true).open(&rt, path) {
        Ok(mut file) => told(ask(&mut file)),
        Err(error) => told::<()>(Err(error)),
    }
}

#[test]
fn files_without_room() {
    let written = of_device("/dev/full", |file| file.write_all(b"fn"));
    assert_eq!(written, "Err(StorageFull, Some(28))");
}

/// Linux can't store `/dev/null`, and reports an error.
#[test]
fn files_are_stored() {
    let stored = of_device("/dev/null", |file| file.sync_all());
    assert_eq!(stored, "Err(InvalidInput, Some(22))");
}

/// Root may give a file to any user. Another user may not give a file away.
#[test]
fn owners_that_change() {
    let here = directory("owners");
    let path = path_in(&here, "file");
    fs::write(&path, "fn").expect("the file can be written");
    let rt = HostRuntime::new();
    let owner = || {
        let about = fs::metadata(&path).expect("the file is there");
        (about.uid(), about.gid())
    };
    let (uid, gid) = owner();
    assert_eq!(told(chown(&rt, &path, None, None)), "Ok(())");
    assert_eq!(owner(), (uid, gid));
    let changed = told(chown(&rt, &path, Some(uid + 1), None));
    if uid == 0 {
        assert_eq!((changed.as_str(), owner()), ("Ok(())", (1, gid)));
        let changed = told(chown(&rt, &path, None, Some(gid + 2)));
        assert_eq!((changed.as_str(), owner()), ("Ok(())", (1, gid + 2)));
    } else {
        assert_eq!(changed, "Err(PermissionDenied, Some(1))");
    }
    let missing = path_in(&here, "no");
    assert_eq!(told(chown(&rt, &missing, None, None)), MISSING);
}

#[test]
fn paths_that_change() {
    let here = directory("changed");
    fs::write(here.join("a"), "a").expect("the file can be written");
    fs::write(here.join("b"), "b").expect("the file can be written");
    symlink("a", here.join("link")).expect("the link can be made");
    let (a, b, link) = (
        path_in(&here, "a"),
        path_in(&here, "b"),
        path_in(&here, "link"),
    );
    let rt = HostRuntime::new();
    let is_link = |path: &str| told(symlink_metadata(&rt, path).map(|about| about.is_symlink()));
    assert_eq!(
        (is_link(&link).as_str(), is_link(&a).as_str()),
        ("Ok(true)", "Ok(false)")
    );
    assert_eq!(
        told(metadata(&rt, &link).map(|about| about.is_file())),
        "Ok(true)"
    );
    let real = canonicalize(&rt, &link).expect("the file is there");
    assert_eq!(Path::new(real.as_str()).file_name(), Some(OsStr::new("a")));
    let missing = path_in(&here, "no");
    assert_eq!(told(canonicalize(&rt, &missing).map(|_| ())), MISSING);
    // The path of a link is a text, and the path of its target isn't.
    fs::write(here.join(OsStr::from_bytes(b"c\xff")), "").expect("the file can be written");
    symlink(OsStr::from_bytes(b"c\xff"), here.join("odd")).expect("the link can be made");
    let odd = canonicalize(&rt, &path_in(&here, "odd")).map(|_| ());
    assert_eq!(told(odd), "Err(InvalidFilename, None)");
    assert_eq!(told(rename(&rt, &missing, &a)), MISSING);
    assert_eq!(told(rename(&rt, &a, "n\0")), NO_PATH);
    assert_eq!(told(rename(&rt, &a, &b)), "Ok(())");
    assert_eq!(fs::read(&b).expect("the file is there"), b"a");
    assert_eq!(told(remove_file(&rt, &b)), "Ok(())");
    assert_eq!(told(remove_file(&rt, &b)), MISSING);
    assert_eq!(is_link(&b), MISSING);
}
