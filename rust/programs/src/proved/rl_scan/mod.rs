// Rendered from crates/rl_scan/src/main.rt by tools/render, which erases contracts: change that file, and render again.
//! The program `rl_scan`. It prints each literal of Rust sources with its position, kind, value and suffix, or the errors in the
//! sources. It also rewrites the literals in a style, and prints the changes or a unified diff.

use crate::rattle_std::prelude::{HostRuntime};
mod args;
mod checks;
mod context;
mod diff;
mod errors;
mod escapes;
mod failure;
mod finding;
mod findings;
mod follower;
mod generated;
mod hidden;
mod host;
mod ids;
mod job;
mod literal;
mod modes;
mod options;
mod output;
mod pages;
mod paths;
mod position;
mod print;
mod rewriting;
mod run;
mod search;
mod selector_rows;
mod stats;
mod style;
mod width_rows;
mod widths;
mod words;

pub use crate::rl_scan::failure::Failure;
use crate::rl_scan::host::host_arguments;
pub use crate::rl_scan::run::{Console, run_with_arguments};
use crate::rl_files::Host;
use crate::rl_program::{Ending, finish};
use crate::rattle_std::alloc::Global;
use crate::rattle_std::env::VarError;
use crate::rattle_std::io::IsTerminal;
use crate::rattle_std::os::unix::fs::FileTypeExt;
use crate::rattle_std::process::ExitCode;
use crate::rattle_std::{env, fs};

fn forbids_colors(rt: &HostRuntime) -> bool {
    match env::var(rt, "NO_COLOR") {
        Ok(value) => !value.is_empty(),
        Err(error) => !matches!(error, VarError::NotPresent),
    }
}

fn is_dumb(rt: &HostRuntime) -> bool {
    match env::var(rt, "TERM") {
        Ok(value) => value.as_str() == "dumb",
        Err(_) => false,
    }
}

fn lacks_input(rt: &HostRuntime) -> bool {
    match fs::metadata(rt, "/dev/stdin") {
        Ok(about) => {
            let kind = about.file_type();
            !kind.is_file() && !kind.is_fifo() && !kind.is_socket()
        }
        Err(_) => rt.stdin().is_terminal(),
    }
}

pub fn main(rt: HostRuntime) -> ExitCode {
    let Ok(args) = host_arguments(&rt) else {
        return finish(&rt, Ending::Failed(Failure::<Global>::Memory));
    };
    let console = Console {
        lacks_input: lacks_input(&rt),
        has_colors: rt.stdout().is_terminal() && !forbids_colors(&rt) && !is_dumb(&rt),
        out: &mut rt.stdout(),
        err: &mut rt.stderr(),
    };
    let (tree, mut files) = (Host { rt: &rt }, Host { rt: &rt });
    let ending = run_with_arguments(rt.alloc(), args.as_slice(), console, &tree, &mut files);
    finish(&rt, ending)
}
