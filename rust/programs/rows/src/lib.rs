//! The library of the development program `rl_rows`, translated from Rattle by build.rs, and the generators of test texts.
#![forbid(unsafe_code)]

pub mod answers;
pub mod command;
pub mod commands;
pub mod core_calls;
pub mod failing;
pub mod one_text;
pub mod settings;
pub mod shown;
pub mod texts;
include!(concat!(env!("OUT_DIR"), "/modules.rs"));

use navyspindle::rendered::{
    rl_cursors, rl_lenient, rl_lexer, rl_strict, rl_style, rl_syntax, rl_writing,
};
use navyspindle_programs::{
    rattle_std, rl_attributes, rl_grammar, rl_program, rl_quoted, rl_restyle, rl_tokens,
    rust_literals,
};
