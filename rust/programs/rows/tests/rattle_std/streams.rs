//! Tests the standard streams. Each test runs itself again in a separate process, whose streams it chooses.

use crate::fakes::told;
use crate::rattle_std::io::{Eprint, IsTerminal, Stdin, Stdout, Write};
use crate::rattle_std::rt::HostRuntime;
use std::fs::OpenOptions;
use std::os::fd::OwnedFd;
use std::os::unix::net::UnixDatagram;
use std::process::{self, Command, Stdio};
use std::{env, str, vec};

/// The environment variable that is set in the separate process of a test.
const AGAIN: &str = "NAVYSPINDLE_STREAMS";

fn is_again() -> bool {
    env::var_os(AGAIN).is_some()
}

/// Returns the command line that runs only the test `test`.
fn words(test: &str) -> [String; 4] {
    let program = env::current_exe().expect("the test has a path");
    let program = program.to_str().expect("the path is a text").to_owned();
    let name = format!("streams::{test}");
    [program, name, "--exact".into(), "--nocapture".into()]
}

/// Returns the command that runs the test `test` in a separate process.
fn again(test: &str) -> Command {
    let [program, words @ ..] = words(test);
    let mut command = Command::new(program);
    command.args(words).env(AGAIN, "1").stdin(Stdio::null());
    command
}

/// Returns an output stream that accepts no byte, because its device is full.
fn full() -> Stdio {
    let full = OpenOptions::new().write(true).open("/dev/full");
    Stdio::from(full.expect("Linux has /dev/full"))
}

const NO_ROOM: &str = "Err(StorageFull, Some(28))";

/// Output must not be buffered, because buffered output is lost when a process aborts.
#[test]
fn output_is_written_at_once() {
    if is_again() {
        let written = told(Stdout.write_all(b"[no line's end]"));
        eprintln!("{written}");
        process::abort();
    }
    let ran = again("output_is_written_at_once").output();
    let ran = ran.expect("the test runs again");
    assert_eq!(str::from_utf8(&ran.stderr), Ok("Ok(())\n"));
    let printed = String::from_utf8_lossy(&ran.stdout);
    assert!(printed.ends_with("[no line's end]"), "{printed}");
}

/// Prints lines of these lengths to standard error, and returns the number of bytes of each write.
fn writes_of_lines(lens: &[usize]) -> vec::Vec<usize> {
    let (ours, theirs) = UnixDatagram::pair().expect("the sockets can be made");
    ours.set_nonblocking(true).expect("the socket can be set");
    let lens: vec::Vec<String> = lens.iter().map(usize::to_string).collect();
    let ran = again("errors_are_whole_lines")
        .env(AGAIN, lens.join(" "))
        .stdout(Stdio::null())
        .stderr(Stdio::from(OwnedFd::from(theirs)))
        .status();
    assert!(ran.expect("the test runs again").success());
    let (mut lens, mut bytes) = (vec::Vec::new(), [0; 4096]);
    while let Ok(len) = ours.recv(&mut bytes) {
        lens.push(len);
    }
    lens
}

/// Prints a line of `len` bytes, including its LF, in two parts.
fn print_line(len: usize) {
    let rest = "x".repeat(len - 2);
    let printed = HostRuntime::new().eprintln(format_args!("{}{rest}", 'a'));
    assert_eq!(told(printed), "Ok(())");
}

/// A line of up to 1,024 bytes is one write, so that output of other programs can't come between its parts.
#[test]
fn errors_are_whole_lines() {
    if let Ok(lens) = env::var(AGAIN) {
        for len in lens.split(' ') {
            print_line(len.parse().expect("a number"));
        }
        return;
    }
    assert_eq!(writes_of_lines(&[2, 1023, 1024]), [2, 1023, 1024]);
    assert_eq!(writes_of_lines(&[1025, 3]), [1024, 1, 3]);
    assert_eq!(
        writes_of_lines(&[2500, 2048]),
        [1024, 1024, 452, 1024, 1024]
    );
}

#[test]
fn long_lines_are_not_changed() {
    let line: String = (0..3000_u32)
        .map(|at| char::from(b'a' + (at % 23) as u8))
        .collect();
    if is_again() {
        let printed = HostRuntime::new().eprintln(&line);
        assert_eq!(told(printed), "Ok(())");
        return;
    }
    let ran = again("long_lines_are_not_changed").output();
    let ran = ran.expect("the test runs again");
    assert_eq!(
        str::from_utf8(&ran.stderr),
        Ok(format!("{line}\n").as_str())
    );
}

#[test]
fn errors_that_cannot_be_written() {
    if is_again() {
        let rt = HostRuntime::new();
        let long = "x".repeat(3000);
        println!("[{} {}]", told(rt.eprintln("a")), told(rt.eprintln(long)));
        return;
    }
    let ran = again("errors_that_cannot_be_written")
        .stderr(full())
        .output();
    let printed = ran.expect("the test runs again").stdout;
    let printed = String::from_utf8_lossy(&printed);
    assert!(
        printed.contains(&format!("[{NO_ROOM} {NO_ROOM}]")),
        "{printed}"
    );
}

/// A Python program. Its first argument names a standard stream, and its other arguments are a command. It runs the command with a
/// terminal as that stream.
const ON_A_TERMINAL: &str = "
import pty, subprocess, sys
main, side = pty.openpty()
streams = {'stdin': subprocess.DEVNULL, 'stdout': subprocess.DEVNULL, sys.argv[1]: side}
sys.exit(subprocess.run(sys.argv[2:], **streams).returncode)
";

/// Shows whether standard input and standard output are terminals, in a process in which `stream` is a terminal.
fn terminals(stream: &str) -> String {
    let ran = Command::new("python3")
        .args(["-c", ON_A_TERMINAL, stream])
        .args(words("terminals_are_told"))
        .env(AGAIN, "1")
        .output();
    let ran = ran.expect("there is Python 3");
    String::from_utf8_lossy(&ran.stderr).into_owned()
}

#[test]
fn terminals_are_told() {
    if is_again() {
        eprint!("{} {}", Stdin.is_terminal(), Stdout.is_terminal());
        return;
    }
    assert_eq!(terminals("stdin"), "true false");
    assert_eq!(terminals("stdout"), "false true");
}
