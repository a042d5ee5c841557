//! Tests the programs with standard streams and arguments that are unusual, such as a full output device.
#![cfg(target_os = "linux")]

use std::ffi::OsStr;
use std::fs::{self, OpenOptions};
use std::io::Write;
use std::os::fd::OwnedFd;
use std::os::unix::ffi::OsStrExt;
use std::os::unix::net::UnixStream;
use std::path::Path;
use std::process::{Command, Output, Stdio};

fn rl_scan() -> Command {
    Command::new(env!("CARGO_BIN_EXE_rl_scan"))
}

fn rl_tool() -> Command {
    Command::new(env!("CARGO_BIN_EXE_rl_tool"))
}

/// Runs the command. Returns its exit status and the text on standard error.
fn ended(command: &mut Command) -> (Option<i32>, String) {
    let Output { status, stderr, .. } = command.output().expect("the program runs");
    (status.code(), String::from_utf8_lossy(&stderr).into_owned())
}

/// Returns an output stream that accepts no byte, because its device is full.
fn full() -> Stdio {
    let full = OpenOptions::new().write(true).open("/dev/full");
    Stdio::from(full.expect("Linux has /dev/full"))
}

/// Tests output that can't be written. With `-Z` a path ends with a NUL and not with a line end. At a line end, Rust's standard
/// output would be flushed.
#[test]
fn output_without_room() {
    let path = Path::new(env!("CARGO_TARGET_TMPDIR")).join("one.rs");
    fs::write(&path, "fn f() { 1 }").expect("the file can be written");
    for words in [&["--files", "-Z"][..], &["-l", "-Z"], &["--json"], &[]] {
        let mut command = rl_scan();
        let (status, said) = ended(command.args(words).arg(&path).stdout(full()));
        assert_eq!(status, Some(2), "{words:?}: {said}");
        assert!(said.starts_with("rl_scan: "), "{words:?}: {said}");
    }
    let (status, said) = ended(
        rl_tool()
            .args(["text", "1"])
            .stdin(Stdio::null())
            .stdout(full()),
    );
    assert_eq!(status, Some(2), "{said}");
}

#[test]
fn long_errors_are_whole() {
    for len in [1, 900, 1000, 1020, 1100, 5000] {
        let word = format!("--{}", "x".repeat(len));
        let (status, said) = ended(rl_scan().arg(&word));
        assert_eq!((status, said.contains(&word)), (Some(2), true), "{said}");
        assert!(said.ends_with('\n'), "{said}");
    }
}

#[test]
fn arguments_that_are_not_texts() {
    for (mut command, expected) in [(rl_scan(), "UTF-8"), (rl_tool(), "usage: rl_tool ")] {
        let (status, said) = ended(command.arg(OsStr::from_bytes(b"a\xff")));
        assert_eq!(status, Some(2), "{said}");
        assert!(said.contains(expected), "{said}");
    }
}

/// A path that isn't UTF-8 is an error, as an argument and in a list. The other paths are read. An option that isn't UTF-8 is an error
/// of the arguments.
#[test]
fn paths_that_are_not_texts() {
    let unread = "rl_scan: a\\xff: the path is not UTF-8\n";
    let bad = OsStr::from_bytes(b"a\xff");
    for options in [&[][..], &["--find"], &["-c", "--extension"]] {
        let mut command = rl_scan();
        let command = command
            .arg("--files")
            .args(options)
            .arg(bad)
            .arg("Cargo.toml");
        let said = if options.is_empty() {
            unread
        } else {
            "rl_scan: the argument 'a\\xff' is neither UTF-8 nor a path\n"
        };
        assert_eq!(ended(command), (Some(2), said.to_owned()));
    }
    let mut child = rl_scan()
        .args(["--files", "--files-from", "-"])
        .stdin(Stdio::piped())
        .stdout(Stdio::piped())
        .stderr(Stdio::piped())
        .spawn()
        .unwrap();
    child
        .stdin
        .take()
        .unwrap()
        .write_all(b"a\xff\nCargo.toml\n")
        .unwrap();
    let done = child.wait_with_output().unwrap();
    assert_eq!(String::from_utf8(done.stdout).unwrap(), "Cargo.toml\n");
    assert_eq!(String::from_utf8(done.stderr).unwrap(), unread);
    assert_eq!(done.status.code(), Some(2));
}

/// Runs `rl_scan -l` in the directory. Returns the paths that it prints, the text on standard error, and its exit status.
fn read_in(directory: &Path, options: &[&str]) -> (String, String, Option<i32>) {
    let mut command = rl_scan();
    let command = command.arg("-l").args(options).arg(".");
    let done = command.current_dir(directory).output().unwrap();
    let [out, said] = [done.stdout, done.stderr].map(|text| String::from_utf8(text).unwrap());
    (out, said, done.status.code())
}

/// Returns the warnings about these escaped paths.
fn skipped(paths: &[&str]) -> String {
    let lines = paths
        .iter()
        .map(|path| format!("rl_scan: ./{path}: skipped a path that is not UTF-8\n"));
    lines.collect()
}

/// In a directory, a name that isn't UTF-8 is skipped with a warning, and the other files are read. There is no warning about a
/// hidden name, an excluded name, and a name with another extension. A directory whose name isn't UTF-8 is skipped too.
#[test]
fn names_that_are_not_texts() {
    let directory = Path::new(env!("CARGO_TARGET_TMPDIR")).join("names_that_are_not_texts");
    let _ = fs::remove_dir_all(&directory);
    let inner = [&b"e\xe9"[..], b".f\xe9", b"h\xe9-1.0", "\u{e9}".as_bytes()];
    for name in inner {
        fs::create_dir_all(directory.join(OsStr::from_bytes(name))).unwrap();
    }
    let files = [
        &b"a.rs"[..],
        b"b\xe9.rs",
        b".c\xe9.rs",
        b"d\xe9.txt",
        b"e\xe9/x.rs",
        b".f\xe9/x.rs",
        b"g.2\xe9",
        b"h\xe9-1.0/x.rs",
        b"\xc3\xa9/\\\xff.rs",
        b"\xc3\xa9/z.rs",
    ];
    for name in files {
        fs::write(directory.join(OsStr::from_bytes(name)), "1").unwrap();
    }
    let read = "./a.rs\n./\u{e9}/z.rs\n";
    // The names without an extension of letters may be those of directories.
    let [e, f, g, h] = ["e\\xe9", ".f\\xe9", "g.2\\xe9", "h\\xe9-1.0"];
    let below = "\\xc3\\xa9/\\x5c\\xff.rs";
    for (options, out, paths, status) in [
        (&[][..], read, &["b\\xe9.rs", e, g, h, below][..], 0),
        (
            &["--all"],
            read,
            &[".c\\xe9.rs", f, "b\\xe9.rs", e, g, h, below],
            0,
        ),
        (&["--extension", "txt"], "", &["d\\xe9.txt", e, g, h], 2),
        // A `?` of a pattern is one byte.
        (
            &["--exclude", "??", "--exclude", "b?.rs"],
            "./a.rs\n",
            &[g, h],
            0,
        ),
        (
            &["--exclude", "*\u{e9}*"],
            "./a.rs\n",
            &["b\\xe9.rs", e, g, h],
            0,
        ),
    ] {
        let mut said = skipped(paths);
        if status == 2 {
            said.push_str("rl_scan: there was no file to read\n");
        }
        let expected = (out.to_owned(), said, Some(status));
        assert_eq!(read_in(&directory, options), expected, "{options:?}");
    }
}

/// The names of a directory need more space than one read of the directory has.
#[test]
fn names_that_are_long() {
    let directory = Path::new(env!("CARGO_TARGET_TMPDIR")).join("names_that_are_long");
    fs::create_dir_all(&directory).unwrap();
    let mut expected = String::new();
    for number in 100..500 {
        // Each name has 255 bytes, which is the most that Linux accepts.
        let name = format!("{number}{}.rs", "x".repeat(249));
        fs::write(directory.join(&name), "1").unwrap();
        expected.push_str(&format!("./{name}\n"));
    }
    assert_eq!(read_in(&directory, &[]), (expected, String::new(), Some(0)));
}

/// An empty path isn't a file, and a second argument is one too many.
#[test]
fn empty_arguments() {
    for (mut command, words, expected) in [
        (rl_scan(), &[""][..], "rl_scan: "),
        (rl_tool(), &["text", ""], "usage: rl_tool "),
    ] {
        let (status, said) = ended(command.args(words).stdin(Stdio::null()));
        assert_eq!(status, Some(2), "{said}");
        assert!(said.starts_with(expected), "{said}");
    }
}

/// Returns the paths that `rl_scan -l` prints in the directory, without a path and with this standard input.
fn read_without_path(directory: &Path, input: Stdio) -> String {
    let mut command = rl_scan();
    let done = command
        .arg("-l")
        .current_dir(directory)
        .stdin(input)
        .output()
        .unwrap();
    assert_eq!(String::from_utf8_lossy(&done.stderr), "");
    assert_eq!(done.status.code(), Some(0));
    String::from_utf8(done.stdout).unwrap()
}

/// Without a path, a file, a pipe or a socket is read. In place of another standard input, the current directory is read.
#[test]
fn input_without_a_path() {
    let directory = Path::new(env!("CARGO_TARGET_TMPDIR")).join("input_without_a_path");
    fs::create_dir_all(&directory).unwrap();
    for name in ["a.rs", "input"] {
        fs::write(directory.join(name), "1").unwrap();
    }
    let open = |path: &Path| Stdio::from(fs::File::open(path).unwrap());
    for input in [Stdio::null(), open(&directory)] {
        assert_eq!(read_without_path(&directory, input), "./a.rs\n");
    }
    assert_eq!(
        read_without_path(&directory, open(&directory.join("input"))),
        "-\n"
    );
    let mut echo = Command::new("echo")
        .arg("1")
        .stdout(Stdio::piped())
        .spawn()
        .unwrap();
    let pipe = Stdio::from(echo.stdout.take().unwrap());
    assert_eq!(read_without_path(&directory, pipe), "-\n");
    assert!(echo.wait().unwrap().success());
    let (socket, mut writer) = UnixStream::pair().unwrap();
    writer.write_all(b"1").unwrap();
    drop(writer);
    assert_eq!(
        read_without_path(&directory, Stdio::from(OwnedFd::from(socket))),
        "-\n"
    );
}
