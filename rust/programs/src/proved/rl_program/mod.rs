// Rendered from crates/rl_program/src/lib.rt by tools/render, which erases contracts: change that file, and render again.
//! Functions that the programs of this repository share, and the commands of `rl_tool`. They read a whole input, write whole lines,
//! and end the program with a status. The output line of a literal is its kind, its decoded value as a newly written literal, and its
//! suffix. A command reads the whole input as one literal, as a list of literals, or as attributes, and writes their lines.

pub mod attr;
mod attribute_lines;
mod command;
mod command_line;
mod digits;
mod exit;
mod found_line;
mod line;
mod list;
mod lit_line;
mod program_error;
mod rejection;
pub mod run;
mod streams;

pub use crate::rl_program::attribute_lines::entry_lines;
pub use crate::rl_program::command::Command;
pub use crate::rl_program::command_line::run_with_arguments;
pub use crate::rl_program::digits::decode_hex;
pub use crate::rl_program::exit::{Ending, RunError, arguments, finish};
pub use crate::rl_program::found_line::{bool_word, push_found_line};
pub use crate::rl_program::line::{
    label_of, need_no_escapes, push_line_of_kind, push_unescaped_line, push_verbatim_line,
    unescaped_value,
};
pub use crate::rl_program::lit_line::{output_line, push_literal_line};
pub use crate::rl_program::program_error::ProgramError;
pub use crate::rl_program::rejection::Rejection;
pub use crate::rl_program::streams::{WriteError, read_whole, text_of, write_bytes, write_whole};
