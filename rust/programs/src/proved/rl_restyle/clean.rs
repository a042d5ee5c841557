// Rendered from crates/rl_restyle/src/clean.rt by tools/render, which erases contracts: change that file, and render again.
//! Tests whether the literals of a source have errors.

use crate::rl_restyle::slices::between;
use crate::rl_strict::explain;
use crate::rl_style::Restylable;

fn may_be_prefix(byte: u8) -> bool {
    byte.is_ascii_alphanumeric() || matches!(byte, b'_' | b'#')
}

fn ends_with_prefix(front: &str) -> bool {
    match front.as_bytes() {
        [.., last] => may_be_prefix(*last),
        [] => false,
    }
}

pub(crate) fn clean_after(before: bool, source: &str, literal: Restylable<'_>) -> bool {
    if !before {
        return false;
    }
    if ends_with_prefix(between(source, 0, literal.token.lo)) {
        return false;
    }
    match explain(literal.token.text) {
        None => true,
        Some(_) => false,
    }
}
