// Rendered from crates/rl_syntax/src/characters.rt by tools/render, which erases contracts: change that file, and render again.
//! Tests of characters: identifier characters and white space.

pub(crate) fn is_white(c: char) -> bool {
    c.is_whitespace() || c == '\u{200e}' || c == '\u{200f}'
}

pub fn is_id_start(c: char) -> bool {
    c == '_' || (is_xid_start(c) && (c.is_ascii() || !is_white(c)))
}

pub fn is_id_continue(c: char) -> bool {
    is_xid_continue(c) && (c.is_ascii() || !is_white(c))
}

#[inline(always)]
pub fn is_xid_start(c: char) -> bool {
    if c.is_ascii() {
        c.is_ascii_alphabetic()
    } else {
        crate::unicode::is_xid_start(c)
    }
}

pub fn is_xid_continue(c: char) -> bool {
    if c.is_ascii() {
        c.is_ascii_alphanumeric() || c == '_'
    } else {
        crate::unicode::is_xid_continue(c)
    }
}
