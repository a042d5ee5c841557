//! Tests that the translated programs print the stored output of the proved program, and that `rl_tool` prints the results of
//! `stored/texts.rs`, which are those of `syn` and of an independent model.

mod stored;

use std::io::Write;
use std::process::{Command, Stdio};

#[test]
fn rl_scan() {
    stored::check("rl_scan", env!("CARGO_BIN_EXE_rl_scan"));
}

#[test]
fn rl_tool() {
    stored::check("rl_tool", env!("CARGO_BIN_EXE_rl_tool"));
}

/// Returns the status, the output and the error output of a command of `rl_tool` for the input.
fn ended(command: &str, input: &[u8]) -> (Option<i32>, String, String) {
    let mut child = Command::new(env!("CARGO_BIN_EXE_rl_tool"))
        .arg(command)
        .stdin(Stdio::piped())
        .stdout(Stdio::piped())
        .stderr(Stdio::piped())
        .spawn()
        .expect("the program begins");
    let mut stdin = child.stdin.take().expect("a pipe");
    stdin.write_all(input).expect("the pipe is open");
    drop(stdin);
    let output = child.wait_with_output().expect("the program ends");
    let [out, error] =
        [output.stdout, output.stderr].map(|it| String::from_utf8(it).expect("text"));
    (output.status.code(), out, error)
}

/// Returns the status, the output and the error output for a stored result.
fn ending(result: &str) -> (Option<i32>, String, String) {
    let printed = match result {
        "" => String::new(),
        lines => format!("{lines}\n"),
    };
    if result.starts_with("error") {
        (Some(1), String::new(), printed)
    } else {
        (Some(0), printed, String::new())
    }
}

#[test]
fn single_texts() {
    let (texts, lists, settings) = include!("stored/texts.rs");
    for (command, pairs) in [
        ("text", &texts[..]),
        ("read", &lists[..]),
        ("attr", &settings[..]),
    ] {
        for (text, result) in pairs {
            let found = ended(command, text.as_bytes());
            assert_eq!(found, ending(result), "{command} of {text:?}");
        }
        let found = ended(command, b"1\xc3");
        assert_eq!(found, ending("error: input is not UTF-8"), "{command}");
    }
}
