//! Tests that `tools/render` rejects invalid sources, by running `tools/rejects.py`.

use std::process::Command;

#[test]
fn wrong_sources_are_rejected() {
    let script = concat!(env!("CARGO_MANIFEST_DIR"), "/../../../tools/rejects.py");
    let ran = Command::new("python3").arg(script).output().unwrap();
    let said = String::from_utf8_lossy(&ran.stdout);
    assert!(ran.status.success(), "{said}");
    assert!(said.contains(" 0 wrong"), "{said}");
}
