//! The program `rl_rows`, translated from Rattle: it prints the results of the libraries for rows of texts.

use navyspindle_programs::rattle_std::prelude::HostRuntime;

fn main() -> impl std::process::Termination {
    navyspindle_rows::rl_rows::main(HostRuntime::new())
}
