// Rendered from crates/rl_syntax/src/ident.rt by tools/render, which erases contracts: change that file, and render again.
//! A test of whether a text is an identifier.

use crate::rl_syntax::characters::{is_xid_continue, is_xid_start};
use crate::rl_syntax::text::split_char;

#[inline(always)]
pub fn xid_ok(text: &str) -> bool {
    match split_char(text) {
        Some((first, rest)) => { (first == '_' || is_xid_start(first)) && all_continue(rest) }
        None => false,
    }
}

fn all_continue(text: &str) -> bool {
    text.chars().all(|c| is_xid_continue(c))
}
