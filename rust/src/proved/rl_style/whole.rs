// Rendered from crates/rl_style/src/whole.rt by tools/render, which erases contracts: change that file, and render again.
//! Tests whether the literals of a whole source may be rewritten.

use crate::rl_lexer::without_byte_order_mark;
use crate::rl_syntax::text::begins;

#[inline]
pub fn is_safe_to_restyle(source: &str) -> bool {
    let text = without_byte_order_mark(source);
    !begins(text, "#!") || begins(text, "#![")
}
