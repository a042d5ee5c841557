//! The errors that rustc prints for macro calls with errors.

use std::path::Path;
use std::process::Command;

/// Returns a line for each error of `rust/macros/bad`: the line, the column and the message. Lines of a message have `\n` between them.
fn printed() -> Vec<String> {
    let folder = Path::new(env!("CARGO_MANIFEST_DIR")).join("../bad");
    let out = Command::new(env!("CARGO"))
        .args(["check", "--quiet", "--message-format=short", "--offline"])
        .arg("--manifest-path")
        .arg(folder.join("Cargo.toml"))
        .env(
            "CARGO_TARGET_DIR",
            Path::new(env!("CARGO_TARGET_TMPDIR")).join("bad"),
        )
        .output()
        .expect("cargo");
    let text = String::from_utf8(out.stderr).expect("UTF-8");
    let errors = text.split("src/main.rs:").skip(1).map(|error| {
        let error = error.split("error: could not compile").next();
        let error = error.unwrap_or_default().trim_end();
        error.replace(" error:", "").replace('\n', "\\n")
    });
    errors.collect()
}

/// Returns a line for each error that the comments of `rust/macros/bad` name.
fn expected() -> Vec<String> {
    let source = include_str!("../../bad/src/main.rs");
    let errors = source.lines().zip(1..).flat_map(|(line, number)| {
        let errors = line.split("//~ ").skip(1);
        errors.map(move |error| format!("{number}:{}", error.trim()))
    });
    errors.skip_while(|line| line.starts_with("1:")).collect()
}

/// rustc reports each of the errors, at its tokens, and no other error.
#[test]
fn rustc_reports_exactly_the_errors() {
    let (mut printed, mut expected) = (printed(), expected());
    printed.sort();
    expected.sort();
    assert_eq!(printed, expected);
}
