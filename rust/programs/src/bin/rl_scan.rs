//! The program `rl_scan`, translated from Rattle: it finds, checks and rewrites the literals of sources.

use navyspindle_programs::rattle_std::prelude::HostRuntime;
use std::process::ExitCode;

fn main() -> ExitCode {
    navyspindle_programs::rl_scan::main(HostRuntime::new())
}
