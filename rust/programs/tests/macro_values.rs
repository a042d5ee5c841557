//! Tests `rl_scan` on integers above 128 bits as macro input. rustc 1.95 compiles `m!(..)` with each of these integers, if `m`
//! takes a `tt`, and rejects each of them as an expression.

use std::io::Write;
use std::process::{Command, Stdio};

const LARGE: [&str; 3] = [
    "340282366920938463463374607431768211456",
    "340282366920938463463374607431768211456u9",
    "0xfffffffffffffffffffffffffffffffff",
];

/// Runs `rl_scan` with these options on standard input. Returns its exit status and its output.
fn scanned(options: &[&str], source: &str) -> (Option<i32>, String) {
    let mut child = Command::new(env!("CARGO_BIN_EXE_rl_scan"))
        .args(options)
        .arg("-")
        .stdin(Stdio::piped())
        .stdout(Stdio::piped())
        .stderr(Stdio::piped())
        .spawn()
        .expect("the program runs");
    let mut stdin = child.stdin.take().expect("a pipe");
    stdin
        .write_all(source.as_bytes())
        .expect("the pipe is open");
    drop(stdin);
    let output = child.wait_with_output().expect("the program ends");
    (
        output.status.code(),
        String::from_utf8_lossy(&output.stdout).into_owned(),
    )
}

#[test]
fn any_value_is_accepted_in_macro_calls() {
    for large in LARGE {
        let source = format!("m!({large});\n");
        for options in [&["--bad"][..], &["--bad", "--any-suffix"]] {
            let (status, lines) = scanned(options, &source);
            assert_eq!((status, lines.as_str()), (Some(0), ""), "{large}");
        }
    }
}

#[test]
fn any_value_is_accepted_elsewhere_with_any_suffix() {
    for large in LARGE {
        let source = format!("f({large});\n");
        let (status, lines) = scanned(&["--bad", "--any-suffix"], &source);
        assert_eq!((status, lines.as_str()), (Some(0), ""), "{large}");
        let (status, lines) = scanned(&["--bad"], &source);
        assert_eq!(status, Some(1), "{large}: {lines}");
        assert!(lines.contains("integer above 128 bits"), "{large}: {lines}");
    }
}

#[test]
fn other_flaws_stay() {
    for options in [&["--bad"][..], &["--bad", "--any-suffix"]] {
        let (status, lines) = scanned(options, "m!(0b2, '\\q');\n");
        assert_eq!((status, lines.lines().count()), (Some(1), 2), "{lines}");
    }
}

/// With `--macros all`, a literal in a macro call is checked like all others. The literal has the bytes 3 to 6.
#[test]
fn macro_calls_are_checked_on_request() {
    let (status, lines) = scanned(&["--bad", "--macros", "all"], "m!(1u9);\n");
    assert_eq!(
        (status, lines.as_str()),
        (Some(1), "3..6 error: unknown suffix: 1u9\n")
    );
    let (status, lines) = scanned(&["--bad", "--macros", "skip"], "m!(1u9);\n");
    assert_eq!((status, lines.as_str()), (Some(0), ""));
}

/// `--fix` rewrites the other literals of the source, and leaves the large integer unchanged.
#[test]
fn fix_leaves_it_as_it_is() {
    for large in LARGE {
        let source = format!("fn main() {{ let a = 1E5; m!({large}); }}\n");
        let (status, text) = scanned(&["--fix"], &source);
        assert_eq!(status, Some(0), "{large}");
        assert_eq!(text, source.replace("1E5", "1e5"), "{large}");
    }
}
