// Rendered from crates/rl_cursors/src/ranges.rt by tools/render, which erases contracts: change that file, and render again.
//! A function that returns the range of a quoted literal's text that encodes a range of the literal's decoded value.

use crate::rl_cursors::segments::Segments;
use crate::rl_lenient::Body;
use crate::rl_syntax::Kind;

#[inline]
pub fn text_range(kind: Kind, text: &str, body: &Body, lo: usize, hi: usize) -> (usize, usize) {
    let first = Segments::of_body(kind, text, body).text_offset(lo);
    if lo < hi {
        (
            first,
            Segments::of_body(kind, text, body).text_offset_after(hi - 1),
        )
    } else {
        (first, first)
    }
}
