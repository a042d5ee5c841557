// Rendered from crates.txt by tools/render: change that file, and render again.
//! The crates above the core as `tools/render` writes them: their functions without the contracts.

pub mod rl_attributes;
pub mod rl_files;
pub mod rl_fronts;
pub mod rl_grammar;
pub mod rl_program;
pub mod rl_quoted;
pub mod rl_restyle;
pub mod rl_scan;
pub mod rl_tokens;
pub mod rl_tool;
pub mod rust_literals;
