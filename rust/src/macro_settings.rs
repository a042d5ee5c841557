//! Settings of procedural macros and attributes.

use crate::{MacroError, SettingError, Settings};
use alloc::string::{String, ToString};
use alloc::vec::Vec;
use core::ops::Range;
use proc_macro::{Delimiter, Group, Span, TokenStream, TokenTree};

/// A procedural macro's input as text, with the byte range of each token.
///
/// Functions on text, such as [`Settings::read`](crate::Settings::read), can parse this text. [`spans`](MacroInput::spans) converts
/// a byte range of this text to spans.
///
/// ```no_run
/// extern crate proc_macro;
/// use navyspindle::{MacroError, MacroInput, Key};
///
/// const NAME: Key = Key::new("name", "a string");
/// const SIZE: Key = Key::new("size", "an integer from 0 to 255");
///
/// /// Reads `name = "x", size = 10`. The name is required. The size is 1 by default.
/// fn read(input: proc_macro::TokenStream) -> Result<(String, u8), MacroError> {
///     let text = MacroInput::of(input);
///     let settings = text.settings()?;
///     settings.check(&[NAME, SIZE]).map_err(|error| text.error(&error))?;
///     let name = settings.string(NAME).map_err(|error| text.error(&error))?;
///     let name = name.ok_or_else(|| text.error(&settings.missing_error(NAME)))?;
///     let size = settings.number(SIZE).map_err(|error| text.error(&error))?;
///     Ok((name.into_owned(), size.unwrap_or(1)))
/// }
/// ```
#[derive(Clone, Debug, Default)]
pub struct MacroInput {
    text: String,
    /// The byte range of each token in `text`. `spans` has the span of the token with the same index.
    places: Vec<Range<usize>>,
    spans: Vec<Span>,
}

impl MacroInput {
    #[inline]
    fn push(&mut self, token: &str, span: Span) {
        let start = self.text.len();
        self.text.push_str(token);
        self.places.push(start..self.text.len());
        self.spans.push(span);
    }

    /// Appends a token and a space to the text.
    #[inline]
    fn push_apart(&mut self, token: &str, span: Span) {
        self.push(token, span);
        self.text.push(' ');
    }

    #[inline]
    fn push_group(&mut self, group: &Group) {
        let (open, close) = match group.delimiter() {
            Delimiter::Parenthesis => ("(", ")"),
            Delimiter::Bracket => ("[", "]"),
            Delimiter::Brace => ("{", "}"),
            // A group without delimiters, in which `macro_rules!` passes tokens on.
            Delimiter::None => return self.push_all(group.stream()),
        };
        self.push_apart(open, group.span_open());
        self.push_all(group.stream());
        self.push_apart(close, group.span_close());
    }

    #[inline]
    fn push_all(&mut self, tokens: TokenStream) {
        for tree in tokens {
            match &tree {
                TokenTree::Group(group) => self.push_group(group),
                // The apostrophe of a lifetime, which has no space after it. Any other punctuation has one, because two slashes
                // side by side would begin a comment.
                TokenTree::Punct(mark) if mark.as_char() == '\'' => self.push("'", mark.span()),
                _ => self.push_apart(&tree.to_string(), tree.span()),
            }
        }
    }

    /// Converts the tokens to text. A space follows each token, except the apostrophe of a lifetime.
    ///
    /// ```no_run
    /// extern crate proc_macro;
    /// let text = navyspindle::MacroInput::of("a = 1".parse().unwrap());
    /// assert_eq!(text.text(), "a = 1 ");
    /// ```
    #[inline]
    #[must_use]
    pub fn of(input: TokenStream) -> Self {
        let mut text = MacroInput::default();
        text.push_all(input);
        text
    }

    /// Returns the input's text. [`spans`](MacroInput::spans) converts its byte ranges to spans.
    ///
    /// ```no_run
    /// extern crate proc_macro;
    /// let text = navyspindle::MacroInput::of("'a' 1u8".parse().unwrap());
    /// assert_eq!(navyspindle::parse_list(text.text()).count(), 2);
    /// ```
    #[inline]
    #[must_use]
    pub fn text(&self) -> &str {
        &self.text
    }

    /// Parses the text as settings. See the example of [`MacroInput`].
    ///
    /// # Errors
    ///
    /// Returns an error if the text isn't settings. The error is at the wrong tokens.
    ///
    /// ```no_run
    /// extern crate proc_macro;
    /// let text = navyspindle::MacroInput::of("a = 1, b = 2".parse().unwrap());
    /// assert_eq!(text.settings()?.entries().len(), 2);
    /// # Ok::<(), navyspindle::MacroError>(())
    /// ```
    #[inline]
    pub fn settings(&self) -> Result<Settings<'_>, MacroError> {
        Settings::read(&self.text).map_err(|error| self.error(&error))
    }

    /// Converts an error of settings that were read from this text. The `MacroError` is at the tokens of the error's
    /// [`piece`](SettingError::piece). If the piece is empty, as for a missing setting, the `MacroError` is at the token before it.
    /// [`MacroError::at`] moves the error to another token, such as the attribute's name.
    ///
    /// ```no_run
    /// extern crate proc_macro;
    /// use navyspindle::{MacroInput, Key};
    ///
    /// let text = MacroInput::of("a = 1".parse().unwrap());
    /// let error = text.settings()?.string(Key::new("a", "a string")).unwrap_err();
    /// assert_eq!(text.error(&error).to_string(), "a: expected a string");
    /// # Ok::<(), navyspindle::MacroError>(())
    /// ```
    #[inline]
    #[must_use]
    pub fn error(&self, error: &SettingError) -> MacroError {
        let mut bytes = error.piece();
        if bytes.is_empty() {
            bytes.start = bytes.start.saturating_sub(1);
        }
        let (first, last) = self.spans(bytes);
        MacroError::between(error.kind(), first, last)
    }

    /// Returns the spans of the first and the last token that overlap the byte range `bytes`. If none overlaps, both are the span
    /// of the next token. After the last token, both are the span of the last token. Without tokens, both are the macro's call.
    ///
    /// ```no_run
    /// extern crate proc_macro;
    /// let text = navyspindle::MacroInput::of("a = -1".parse().unwrap());
    /// let (minus, number) = text.spans(4..7);
    /// ```
    #[inline]
    #[must_use]
    pub fn spans(&self, bytes: Range<usize>) -> (Span, Span) {
        match touched(&self.places, &bytes) {
            Some((first, last)) => (self.spans[first], self.spans[last]),
            None => (Span::call_site(), Span::call_site()),
        }
    }
}

/// Returns the indices of the first and the last range that overlap `bytes`. If none overlaps, both are the index of the next range
/// after `bytes`, or of the last range. Without ranges the result is `None`.
///
/// The first range begins at 0. Each other range begins at or after the end of the one before it. The time grows with the logarithm
/// of the number of ranges.
#[inline]
fn touched(ranges: &[Range<usize>], bytes: &Range<usize>) -> Option<(usize, usize)> {
    let first = ranges.partition_point(|range| range.end <= bytes.start);
    let after = ranges.partition_point(|range| range.start < bytes.end.max(1));
    let last = after.checked_sub(1)?;
    Some(if first < after {
        (first, last)
    } else if first < ranges.len() {
        (first, first)
    } else {
        (last, last)
    })
}

#[cfg(test)]
mod tests {
    use super::touched;
    use core::ops::Range;
    use std::vec::Vec;

    /// Returns the result of `touched` by looking at each range.
    fn by_walks(ranges: &[Range<usize>], bytes: &Range<usize>) -> Option<(usize, usize)> {
        let has_some =
            |range: &Range<usize>| range.start < bytes.end.max(1) && range.end > bytes.start;
        let last = ranges.len().checked_sub(1)?;
        let following = (0..=last)
            .find(|&at| ranges[at].end > bytes.start)
            .unwrap_or(last);
        let first = (0..=last).find(|&at| has_some(&ranges[at]));
        let last = (0..=last).rfind(|&at| has_some(&ranges[at]));
        Some((first.unwrap_or(following), last.unwrap_or(following)))
    }

    /// Returns up to four ranges of one to three bytes, with up to two bytes between two of them. The digits of `number` determine
    /// the ranges. The first range begins at 0.
    fn ranges_of(mut number: usize) -> Vec<Range<usize>> {
        let (mut ranges, mut end) = (Vec::new(), 0);
        while number > 0 {
            let start = if ranges.is_empty() {
                0
            } else {
                end + number % 3
            };
            end = start + 1 + number / 3 % 3;
            ranges.push(start..end);
            number /= 9;
        }
        ranges
    }

    #[test]
    fn as_by_walks() {
        for number in 0..9_usize.pow(4) {
            let ranges = ranges_of(number);
            let end = ranges.last().map_or(0, |range| range.end) + 2;
            for start in 0..=end {
                for bytes in (start..=end).map(|end| start..end) {
                    let found = touched(&ranges, &bytes);
                    assert_eq!(found, by_walks(&ranges, &bytes), "{ranges:?} {bytes:?}");
                }
            }
        }
    }
}
