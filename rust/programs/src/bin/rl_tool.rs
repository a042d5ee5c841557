//! The program `rl_tool`, translated from Rattle: it parses literals and prints their parts.

use navyspindle_programs::rattle_std::prelude::HostRuntime;
use std::process::ExitCode;

fn main() -> ExitCode {
    navyspindle_programs::rl_tool::main(HostRuntime::new())
}
