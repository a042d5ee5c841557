// Rendered from crates/rl_syntax/src/lines.rt by tools/render, which erases contracts: change that file, and render again.
//! Functions that find where a line of a text ends.

use crate::rl_syntax::lanes::line_len;
use crate::rl_syntax::text::split_ascii;

#[inline(always)]
pub fn split_line(text: &str) -> (&str, &str) {
    crate::slices::split_at!(text, line_len(text.as_bytes()))
}

#[inline(always)]
pub fn after_first_line_feed(text: &str) -> Option<&str> {
    let (_, from) = split_line(text);
    let (_, following) = split_ascii(from)?;
    Some(following)
}
