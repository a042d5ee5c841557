//! Tests that the development program `rl_rows`, translated to Rust, prints the stored output of the proved program.

#[path = "../../tests/stored/mod.rs"]
mod stored;

const PROGRAM: &str = env!("CARGO_BIN_EXE_rl_rows");

/// Tests all rows except those of long texts and of many names.
#[test]
fn rows() {
    stored::check_but("rl_rows", PROGRAM, &["long ", "names "]);
}

#[test]
#[ignore = "ten seconds of a processor, for texts of a million characters; rust/check runs it"]
fn all_rows() {
    stored::check("rl_rows", PROGRAM);
}
