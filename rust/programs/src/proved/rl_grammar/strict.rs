// Rendered from crates/rl_grammar/src/strict.rt by tools/render, which erases contracts: change that file, and render again.
//! The strict grammar of literal tokens, which is that of the Rust Reference: functions that parse a text by it, or
//! return the reason why the text isn't a literal token.

use crate::rl_strict::LineEnds;
pub use crate::rl_strict::{Number, Reading, read};

pub fn is_token(text: &str) -> bool {
    read(text, LineEnds::Text, false).is_ok()
}
