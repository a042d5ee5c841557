// Rendered from crates/rl_lexer/src/lexeme/suffix.rt by tools/render, which erases contracts: change that file, and render again.
//! Functions that lex the suffix of a literal.

use crate::rl_syntax::characters::is_id_start;
use crate::rl_syntax::classes::{CharClass, skip_class};
use crate::rl_syntax::text::{split_ascii, split_char};

#[inline(always)]
pub(crate) fn after_suffix(text: &str) -> &str {
    match split_ascii(text) {
        Some((byte, _)) if !is_id_start(byte as char) => text,
        _ => after_some_suffix(text),
    }
}

#[inline(never)]
fn after_some_suffix(text: &str) -> &str {
    match split_char(text) {
        Some((c, following)) if is_id_start(c) => skip_class(CharClass::Continue, following),
        _ => text,
    }
}
