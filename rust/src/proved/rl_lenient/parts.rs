// Rendered from crates/rl_lenient/src/parts.rt by tools/render, which erases contracts: change that file, and render again.
//! The parts of a quoted literal, by the byte offsets of its parse result.

use crate::rl_lenient::found::Body;
use crate::rl_syntax::Kind;

#[inline]
pub fn suffix_of<'t>(text: &'t str, body: &Body) -> &'t str {
    let end = text.len();
    if body.suffix_at == end {
        &text[end..]
    } else {
        &text[body.suffix_at..]
    }
}

#[inline]
pub fn body_of<'t>(text: &'t str, body: &Body) -> &'t str {
    &text[body.lo..body.hi]
}

#[inline]
pub fn plain_body_of<'t>(text: &'t str, body: &Body) -> Option<&'t str> {
    if body.plain {
        Some(body_of(text, body))
    } else {
        None
    }
}

#[inline]
pub fn is_raw(kind: Kind, text: &str, body: &Body) -> bool {
    body.lo > kind.opener().len()
}

#[inline]
pub fn hashes(kind: Kind, text: &str, body: &Body) -> usize {
    let opener = kind.opener().len();
    if body.lo > opener {
        body.lo - opener - 1
    } else {
        0
    }
}
