// Rendered from crates/rl_strict/src/reasons.rt by tools/render, which erases contracts: change that file, and render again.
//! Returns the flaw of a text that isn't a literal token, or has no value.

use crate::rl_strict::flaws::Flaw;
use crate::rl_strict::limits::flaw_if_above_128_bits;
use crate::rl_strict::line_ends::LineEnds;
use crate::rl_strict::strict_reading::read;

#[inline]
pub fn explain(text: &str) -> Option<Flaw> {
    match read(text, LineEnds::Text, false) {
        Ok(_) => None,
        Err(flaw) => Some(flaw),
    }
}

#[inline]
pub fn explain_missing_value(text: &str, ends: LineEnds, signed: bool) -> Option<Flaw> {
    match read(text, ends, signed) {
        Ok(reading) => flaw_if_above_128_bits(text, reading),
        Err(flaw) => Some(flaw),
    }
}
