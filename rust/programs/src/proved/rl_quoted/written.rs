// Rendered from crates/rl_quoted/src/written.rt by tools/render, which erases contracts: change that file, and render again.
//! The byte offsets of the parts of a literal that was written from its value.

use crate::rl_lenient::Body;
use crate::rl_syntax::Kind;

fn is_whole(kind: Kind, body: &[u8], value: &[u8]) -> bool {
    kind.is_string() && body == value
}

pub(crate) fn written_body(kind: Kind, text: &str, value: &[u8]) -> Body {
    let bytes = text.as_bytes();
    let lo = kind.opener().len();
    let hi = bytes.len() - 1;
    Body {
        lo,
        hi,
        suffix_at: bytes.len(),
        plain: is_whole(kind, &bytes[lo..hi], value),
    }
}
