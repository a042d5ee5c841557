//! Tests the memory that `rl_scan` takes: in each mode at most 3 bytes for each byte of a file, and 4 MB.
#![cfg(target_os = "linux")]

use std::fs;
use std::path::Path;
use std::process::{Command, Stdio};

/// The modes that rewrite.
const REWRITING: [&str; 3] = ["--check", "--diff", "--fix"];

/// The script of [`peak_of`].
const PEAK: &str = "import resource, subprocess, sys
subprocess.call(sys.argv[1:], stdout=subprocess.DEVNULL)
print(resource.getrusage(resource.RUSAGE_CHILDREN).ru_maxrss)";

/// The options for output, which may be passed with every mode here.
const OUTPUTS: [&str; 7] = ["", "-q", "-l", "-c", "--json", "--format github", "-C400"];

/// The address space of a program that has no file to read, in KB. It has the program's code and libraries.
const EMPTY: usize = 4096;

/// Runs `rl_scan` with limited memory on a file of `count` pieces, in each of the modes and with each of the options for output. A
/// call without enough memory would print an error.
fn assert_small(name: &str, text: &str, modes: &[&str]) {
    let path = Path::new(env!("CARGO_TARGET_TMPDIR")).join(name);
    let most = 4096 + EMPTY + 3 * text.len() / 1024;
    for words in modes
        .iter()
        .flat_map(|mode| OUTPUTS.map(|output| format!("{mode} {output}")))
    {
        fs::write(&path, text).expect("the file can be written");
        let mut command = Command::new("sh");
        command
            .arg("-c")
            .arg(format!("ulimit -v {most}; exec \"$0\" {words} \"$1\""));
        command.arg(env!("CARGO_BIN_EXE_rl_scan")).arg(&path);
        let done = command
            .stdout(Stdio::null())
            .output()
            .expect("the program runs");
        let said = String::from_utf8_lossy(&done.stderr);
        assert!(
            !said.contains("memory") && done.status.code().is_some(),
            "{name}: {words}: {said}"
        );
    }
}

#[test]
fn invisible_characters() {
    assert_small(
        "invisible.rs",
        &"\0".repeat(300_000),
        &["--invisible", "--bad"],
    );
}

#[test]
fn errors_in_a_literal() {
    let text = format!("\"{}\"", "\\q".repeat(100_000));
    assert_small(
        "errors.rs",
        &text,
        &["--bad", "--only Verbatim", "--find x"],
    );
}

#[test]
fn many_literals() {
    assert_small("many.rs", &"f(1);\n".repeat(62_500), &[""]);
    let modes = [
        "--bad",
        "--only Int",
        "--number 1",
        "--find x",
        "--check",
        "--diff",
        "--fix",
    ];
    assert_small("literals.rs", &"f(1);\n".repeat(5_000), &modes);
}

/// Returns the most memory, in KB, that `rl_scan` takes for a file. Pages that were reserved but not used don't count.
fn peak_of(words: &[&str], path: &Path) -> usize {
    let mut command = Command::new("python3");
    command.args(["-c", PEAK, env!("CARGO_BIN_EXE_rl_scan")]);
    let done = command.args(words).arg(path).output().expect("it runs");
    assert!(done.stderr.is_empty(), "{words:?}");
    let said = String::from_utf8(done.stdout).expect("it is a text");
    said.trim().parse().expect("it is a number")
}

/// Tests `--check`, `--diff` and `--fix` with `-q` on a file. Each literal of the file is rewritten.
fn assert_rewritten(name: &str, text: &str) {
    let path = Path::new(env!("CARGO_TARGET_TMPDIR")).join(name);
    for mode in REWRITING {
        fs::write(&path, text).expect("the file can be written");
        let peak = peak_of(&[mode, "-q"], &path);
        assert!(
            peak <= 4096 + 3 * text.len() / 1024,
            "{name}: {mode}: {peak}"
        );
        let is_new = fs::read(&path).expect("the file can be read") != text.as_bytes();
        assert_eq!(is_new, mode == "--fix", "{name}: {mode}");
    }
}

#[test]
fn many_rewritten_literals() {
    assert_rewritten("floats.rs", &format!("[{}]\n", "1E5,".repeat(1_000_000)));
    let raw = "r#\"a\"#,".repeat(500_000);
    assert_rewritten("raw.rs", &format!("[{raw}]\n"));
}

#[test]
fn one_rewritten_literal() {
    let escapes = "\\'".repeat(10_000_000);
    assert_rewritten("escapes.rs", &format!("let a = \"{escapes}\";\n"));
    let plain = "a".repeat(20_000_000);
    assert_rewritten("hashes.rs", &format!("let a = r#\"{plain}\"#;\n"));
}

#[test]
fn one_large_literal() {
    let escapes = "\\'".repeat(2_000_000);
    assert_small(
        "large_escapes.rs",
        &format!("let a = \"{escapes}\";\n"),
        &REWRITING,
    );
    let plain = "a".repeat(4_000_000);
    assert_small(
        "large_raw.rs",
        &format!("let a = r#\"{plain}\"#;\n"),
        &REWRITING,
    );
    let path = Path::new(env!("CARGO_TARGET_TMPDIR")).join("large_float.rs");
    let digits = "1".repeat(4_000_000);
    fs::write(&path, format!("let a = 1.{digits}E5;\n")).expect("the file can be written");
    for mode in REWRITING {
        let peak = peak_of(&[mode], &path);
        assert!(peak <= 4096 + 3 * digits.len() / 1024, "{mode}: {peak}");
    }
}
