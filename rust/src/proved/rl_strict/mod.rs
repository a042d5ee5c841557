// Rendered from crates/rl_strict/src/lib.rt by tools/render, which erases contracts: change that file, and render again.
//! Literal tokens by the Rust Reference: parses a text as one literal token, or returns the reason why the text isn't a literal
//! token or has no value.
//!
//! Reasons have byte offsets. The text is read as it is, or as the text of a literal in a file, where rustc reads CR LF as LF.
//! Nothing is allocated.

pub mod flaws;
pub mod limits;
pub mod line_ends;
mod quoted_flaws;
pub mod read_numbers;
pub mod read_quoted;
pub mod reasons;
pub mod strict;
pub mod strict_quoted_flaws;
pub mod strict_reading;
pub mod walk;
pub mod walk_units;

pub use crate::rl_strict::flaws::{Flaw, FlawKind};
pub use crate::rl_strict::limits::{flaw_above_128_bits, is_float_by_suffix};
pub use crate::rl_strict::line_ends::LineEnds;
pub use crate::rl_strict::read_numbers::Number;
pub use crate::rl_strict::reasons::{explain, explain_missing_value};
pub use crate::rl_strict::strict_reading::{Reading, read};
