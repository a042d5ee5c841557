//! The programs `rl_scan` and `rl_tool`, translated from proved sources.
//!
//! `tools/render` writes `proved` from the Rattle crates above the core. It also translates the core, which is part of the package
//! `navyspindle`. `rattle_std` replaces the parts of Rattle's std that the programs use, by Rust's std. There is no `unsafe`.
#![forbid(unsafe_code)]

#[cfg_attr(not(feature = "__rendered"), allow(dead_code))]
#[allow(unused_imports, unused_variables)]
#[allow(clippy::style, clippy::complexity, clippy::perf, clippy::pedantic, clippy::manual_unwrap_or_default)]
#[rustfmt::skip]
mod proved;
pub mod rattle_std;

use navyspindle::rendered::{
    rl_cursors, rl_flaws, rl_lenient, rl_lexer, rl_strict, rl_style, rl_syntax, rl_writing,
};
#[cfg(not(feature = "__rendered"))]
use proved::{
    rl_attributes, rl_files, rl_fronts, rl_program, rl_quoted, rl_restyle, rl_tokens, rust_literals,
};

/// The libraries of the programs, for the tests.
#[cfg(feature = "__rendered")]
pub use proved::{
    rl_attributes, rl_files, rl_fronts, rl_grammar, rl_program, rl_quoted, rl_restyle, rl_tokens,
    rust_literals,
};
pub use proved::{rl_scan, rl_tool};
