//! The next literal of a list or of settings, with its byte range.

use crate::lit::Lit;
use crate::rl_cursors::NextLiteral;
use alloc::borrow::Cow;
use alloc::format;
use core::ops::Range;

/// Returns the literal that was lexed, and its byte range in the text. If the literal has a minus, the range begins at the minus.
#[inline]
pub(crate) fn placed<'t>(text: &'t str, next: NextLiteral<'t>) -> (Range<usize>, Lit<'t>) {
    let token = next.token;
    let lo = next.minus_at.unwrap_or(token.lo);
    let range = lo..token.hi;
    let text = match next.minus_at {
        // White space or a comment is between the minus and the number.
        Some(minus_at) if minus_at + 1 != token.lo => Cow::Owned(format!("-{}", token.text)),
        _ => Cow::Borrowed(&text[range.clone()]),
    };
    (range, Lit::of_token(text, next.found))
}
