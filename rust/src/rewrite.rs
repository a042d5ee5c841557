//! Rewriting of literals in another style. The result is a literal token of the Rust Reference again. It has the same kind, the
//! same value and the same suffix. Only `1.` may become `1.0`, which `concat!` turns into a different text.

use crate::parse_error::ParseError;
use crate::rl_style::{growth, rewrite_within};
use crate::style::Style;
use alloc::borrow::Cow;
use alloc::string::String;
use alloc::vec;

/// Rewrites a literal in the style. The literal is assumed to be alone, or to follow a space.
///
/// The result has the same kind, the same suffix and the same value. Only [`Style::float_zero`] adds a digit. The result is
/// borrowed if nothing changes. Rewriting the result in the same style leaves it unchanged.
///
/// A macro that looks at a token's text can see the change: `stringify!`, an arm of `macro_rules!` that names a literal, and
/// `concat!` of floats.
///
/// # Errors
///
/// Returns an error if the text isn't a literal token of the Rust Reference. A minus is a separate token. A string that contains a
/// CR LF isn't a token either, although [`Lit::check`](crate::Lit::check) accepts it in a file. `examples/format.rs` rewrites whole
/// files.
///
/// ```
/// use navyspindle::{rewrite, Case, FlawKind, Style};
/// use std::borrow::Cow;
///
/// let style = Style::new().hex_digits(Case::Lower).drop_quote_escapes(true);
/// assert_eq!(rewrite("0xFFu8", style)?, "0xffu8");
/// assert!(matches!(rewrite("0xffu8", style)?, Cow::Borrowed("0xffu8")));
/// assert_eq!(rewrite("0b102", style).unwrap_err().kind(), FlawKind::InvalidDigit);
/// # Ok::<(), navyspindle::ParseError>(())
/// ```
#[inline]
pub fn rewrite(text: &str, style: Style) -> Result<Cow<'_, str>, ParseError> {
    rewrite_in_context("", text, style)
}

/// Rewrites a literal in the style, where `before` is the source's text before the literal. Only the last character of `before`
/// matters.
///
/// After `#` and `.`, a raw string keeps its `r`. `1.r"a"` are three tokens, and `1."a"` are two. `#"a"` is reserved from edition
/// 2024 on.
///
/// # Errors
///
/// Returns the errors of [`rewrite`].
///
/// ```
/// use navyspindle::{rewrite_in_context, Style};
///
/// let style = Style::new().drop_raw(true);
/// assert_eq!(rewrite_in_context("let a = ", r#"r"a""#, style)?, r#""a""#);
/// assert_eq!(rewrite_in_context("1.", r#"r"a""#, style)?, r#"r"a""#);
/// # Ok::<(), navyspindle::ParseError>(())
/// ```
#[inline]
pub fn rewrite_in_context<'t>(
    before: &str,
    text: &'t str,
    style: Style,
) -> Result<Cow<'t, str>, ParseError> {
    let mut room = vec![0; text.len() * growth(style.proved(), text) + 1];
    let len = rewrite_within(before, text, style.proved(), &mut room);
    room.truncate(len.map_err(ParseError::of_flaw)?);
    if room == text.as_bytes() {
        return Ok(Cow::Borrowed(text));
    }
    room.shrink_to_fit();
    let written = String::from_utf8(room);
    Ok(Cow::Owned(written.expect("literals are UTF-8")))
}
