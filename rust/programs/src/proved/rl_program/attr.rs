// Rendered from crates/rl_program/src/attr.rt by tools/render, which erases contracts: change that file, and render again.
//! Attributes, as `rl_attributes` parses them.

pub use crate::rl_attributes::{Attrs, Entry, read};
