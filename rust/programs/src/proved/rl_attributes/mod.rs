// Rendered from crates/rl_attributes/src/lib.rt by tools/render, which erases contracts: change that file, and render again.
//! A parser of settings: `name = literal`, with commas between the settings. The crate is built on the public functions
//! of the crates of literals only.

mod attributes;
mod required;
mod settings;
mod values;

pub use crate::rl_attributes::attributes::{Attrs, Entry, read};
pub use crate::rl_attributes::settings::{Setting, SettingError};
