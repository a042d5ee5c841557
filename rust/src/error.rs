//! The kinds of errors of lists, settings and sources.

/// The missing part that [`SyntaxErrorKind::Expected`] and [`SyntaxErrorKind::EndOfInput`] name.
///
/// ```
/// use navyspindle::{parse_settings, Part, SettingErrorKind, SyntaxErrorKind};
///
/// let error = parse_settings("a = 1 b").unwrap_err();
/// let expected = SyntaxErrorKind::Expected(Part::Comma);
/// assert_eq!(*error.kind(), SettingErrorKind::Syntax(expected));
/// assert_eq!(Part::Comma.noun(), "`,`");
/// ```
pub use crate::rl_cursors::Part;
/// The kind of an error of a list, of settings or of a source. Printing it gives the message without the byte offset.
///
/// ```
/// use navyspindle::{parse_list, SyntaxErrorKind};
///
/// let error = parse_list("1 word").find_map(Result::err).unwrap();
/// assert_eq!(error.kind(), SyntaxErrorKind::NotALiteral);
/// assert_eq!(SyntaxErrorKind::Repeated.to_string(), "repeated name");
/// assert_eq!(SyntaxErrorKind::Repeated.message(), "repeated name");
/// ```
pub use crate::rl_cursors::SyntaxErrorKind;
use crate::rl_lexer::Sources;
use core::ops::Range;

/// Returns the byte range of the token that begins at the byte offset `at`. For a quote or a comment that isn't closed, the range
/// reaches to the text's end.
#[cold]
#[inline]
pub(crate) fn range_at(text: &str, at: usize) -> Range<usize> {
    let token = Sources::resume(text, &text[at..]).next();
    at..token.map_or(text.len(), |token| token.hi)
}
