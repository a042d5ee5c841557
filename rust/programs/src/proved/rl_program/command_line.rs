// Rendered from crates/rl_program/src/command_line.rt by tools/render, which erases contracts: change that file, and render again.
//! Runs `rl_tool` with its arguments, and determines its exit status.

use crate::rattle_std::prelude::{String};
use crate::rl_program::command::Command;
use crate::rl_program::exit::Ending;
use crate::rl_program::program_error::ProgramError;
use crate::rl_program::run::run;
use crate::rl_program::streams::write_whole;
use crate::rattle_std::alloc::Allocator;
use crate::rattle_std::io::{Read, Write};

const USAGE: &str = "usage: rl_tool text|read|attr";

const HELP: &str = "usage: rl_tool text|read|attr
Prints the literals that standard input holds.

Each has a line: its kind, its value, and its suffix or `-`.

Commands:
  text  all of the input is one literal
  read  literals, with white space and comments between them
  attr  settings, `name = literal`, with commas between them; the name first

Options:
  -h, --help     this
  -V, --version  the version

Status:
  0  all lines were written
  1  the input was rejected
  2  wrong arguments, or a stream failed

Examples:
  printf '0x1F_u8 \"a\\\\n\"' | rl_tool read
";

const VERSION: &str = "rl_tool 0.2.0\n";

fn requests_help(word: &str) -> bool {
    word == "--help" || word == "-h"
}

fn requests_version(word: &str) -> bool {
    word == "--version" || word == "-V"
}

fn text_of_word(word: &str) -> Option<&'static str> {
    if requests_help(word) {
        return Some(HELP);
    }
    if requests_version(word) {
        return Some(VERSION);
    }
    None
}

fn requested_text<A: Allocator>(args: &[String<A>]) -> Option<&'static str> {
    match args {
        [_, word] => text_of_word(word.as_str()),
        _ => None,
    }
}

fn show_text<A: Allocator, W: Write>(out: &mut W, text: &str) -> Ending<ProgramError<A>> {
    match write_whole(out, text.as_bytes()) {
        Ok(()) => Ending::Done,
        Err(error) => Ending::Failed(error),
    }
}

pub fn run_with_arguments<A: Allocator + Copy, R: Read, W: Write>(
    alloc: A,
    args: &[String<A>],
    input: &mut R,
    out: &mut W,
) -> Ending<ProgramError<A>> {
    if let Some(text) = requested_text(args) {
        return show_text(out, text);
    }
    let Some(command) = Command::parse_arguments(args) else {
        return Ending::Usage(USAGE);
    };
    match run(alloc, command, input, out) {
        Ok(()) => Ending::Done,
        Err(error) => Ending::Failed(error),
    }
}
