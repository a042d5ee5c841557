// Rendered from crates/rl_cursors/src/openers.rt by tools/render, which erases contracts: change that file, and render again.
//! The opening delimiters of quoted literals, which the search for unclosed literals compares.

use crate::rl_syntax::classes::skip_hashes;
use crate::rl_syntax::text::{before, split_ascii, strip_byte};

#[derive(Clone, Copy)]
pub(crate) enum Opener {
    Quoted,
    Raw(usize),
}

pub(crate) fn split_opener(text: &str) -> Option<(Opener, &str)> {
    match split_ascii(text) {
        Some((b'b', following)) => split_bare_opener(following),
        Some((b'c', following)) => split_bare_opener(following),
        _ => split_bare_opener(text),
    }
}

fn split_bare_opener(text: &str) -> Option<(Opener, &str)> {
    match split_ascii(text) {
        Some((b'"', body)) => Some((Opener::Quoted, body)),
        Some((b'r', following)) => split_raw_opener(following),
        _ => None,
    }
}

fn split_raw_opener(text: &str) -> Option<(Opener, &str)> {
    let quote = skip_hashes(text);
    let body = strip_byte(quote, b'"')?;
    let hashes = before(text, quote).len();
    Some((Opener::Raw(hashes), body))
}
