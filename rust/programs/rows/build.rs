//! Translates the Rattle crates of the program `rl_rows` to Rust. The repository doesn't contain this translation.

use std::env;
use std::path::Path;
use std::process::Command;

fn main() {
    let top = Path::new(env!("CARGO_MANIFEST_DIR")).join("../../..");
    let out = env::var("OUT_DIR").expect("Cargo names the folder");
    let render = top.join("tools/render");
    let ran = Command::new("python3")
        .arg(&render)
        .args(["--rows", &out])
        .status();
    assert!(
        ran.is_ok_and(|status| status.success()),
        "tools/render, which needs Python 3, didn't render the rows"
    );
    for name in ["rl_uses", "rl_rows"] {
        println!(
            "cargo::rerun-if-changed={}",
            top.join("crates").join(name).join("src").display()
        );
    }
    for script in ["render", "uncalled.py", "uncalled.txt"] {
        println!(
            "cargo::rerun-if-changed={}",
            top.join("tools").join(script).display()
        );
    }
}
