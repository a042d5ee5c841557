//! Links the programs with the static library of libgcc's unwinder, if the C compiler has it. Then a program loads only libc when
//! it starts.

use std::env;
use std::path::PathBuf;
use std::process::Command;

fn main() {
    println!("cargo::rerun-if-changed=build.rs");
    if env::var("HOST") != env::var("TARGET")
        || env::var("CARGO_CFG_TARGET_ENV").as_deref() != Ok("gnu")
    {
        return;
    }
    if let Some(folder) = unwinders_folder() {
        println!("cargo::rustc-link-search=native={}", folder.display());
        println!("cargo::rustc-link-lib=static:-bundle=gcc_eh");
    }
}

/// Returns the folder of `libgcc_eh.a`, or `None` if the C compiler doesn't have this library.
fn unwinders_folder() -> Option<PathBuf> {
    let asked = Command::new("cc")
        .arg("-print-file-name=libgcc_eh.a")
        .output()
        .ok()?;
    let path = PathBuf::from(String::from_utf8(asked.stdout).ok()?.trim());
    path.is_absolute()
        .then(|| path.parent())?
        .map(PathBuf::from)
}
