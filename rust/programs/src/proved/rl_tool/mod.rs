// Rendered from crates/rl_tool/src/main.rt by tools/render, which erases contracts: change that file, and render again.
//! The program `rl_tool`. It reads literals or attributes, and prints the kind, the value and the suffix of each literal.

use crate::rattle_std::prelude::{HostRuntime, Vec};
use crate::rl_program::{arguments, finish, run_with_arguments};
use crate::rattle_std::process::ExitCode;

pub fn main(rt: HostRuntime) -> ExitCode {
    let args = arguments(&rt).unwrap_or(Vec::new(rt.alloc()));
    let ending = run_with_arguments(
        rt.alloc(),
        args.as_slice(),
        &mut rt.stdin(),
        &mut rt.stdout(),
    );
    finish(&rt, ending)
}
