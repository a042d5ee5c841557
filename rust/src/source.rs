//! Iterators over the literals of whole sources.

use crate::list_error::ListError;
use crate::lit::Lit;
use crate::rl_cursors::{next_recovered_literal, Recovery};
use crate::rl_cursors::{next_source_literal, SourceStep};
use crate::rl_lenient::Found;
use crate::rl_lexer::{SourceToken, Sources};
use alloc::borrow::Cow;
use core::fmt;
use core::iter::FusedIterator;
use core::ops::Range;

type Item<'t> = Result<(Range<usize>, Lit<'t>), ListError>;

/// Converts a literal token and its parse result to a byte range and a literal.
fn literal_of<'t>(token: SourceToken<'t>, found: Option<Found>) -> (Range<usize>, Lit<'t>) {
    let literal = Lit::of_token(Cow::Borrowed(token.text), found);
    (token.lo..token.hi, literal)
}

/// An iterator over the literals of a whole Rust source, each with its byte range. See [`source`].
///
/// ```
/// use navyspindle::{source, Source};
///
/// let mut literals: Source = source("f(1, 'a')");
/// let (range, literal) = literals.next().unwrap()?;
/// assert_eq!((range, literal.text()), (2..3, "1"));
/// assert_eq!(literals.count(), 1);
/// # Ok::<(), navyspindle::ListError>(())
/// ```
#[must_use = "an iterator does nothing until it is asked"]
pub struct Source<'t> {
    text: &'t str,
    tokens: Sources<'t>,
    is_done: bool,
}

/// Iterates over the literals of a Rust source file, each with its byte range, up to the first quote or block comment that isn't
/// closed.
///
/// Literals are read as `syn` reads them, and `syn` accepts some texts that Rust rejects: `0b102` is a float. Call [`Lit::check`]
/// to know whether Rust accepts a literal. A literal without a meaning, such as `'\q'`, is [`Lit::Verbatim`]. So is a quote with no
/// or several characters: `''`, `'ab'`, `b'hello'`, and `'1a`, each up to where rustc's lexer ends it.
///
/// Comments are skipped, and so are a byte order mark at the start of the text, and a first line that begins with `#!`, such as
/// `#!/bin/sh`. A text that begins with `#![` begins with an attribute, which isn't skipped. Ranges count the skipped bytes.
///
/// A minus isn't part of a literal here; in [`parse_list`](fn@crate::parse_list) it is. `true` and `false`
/// are literals. A tuple's field is read as a number too: `t.0.1` has the float `0.1`. So look for a dot before a number that you
/// change.
///
/// In strings, CR LF is a line end. The value has LF, and [`Lit::check`] accepts it. [`flaws_in_file`](crate::flaws_in_file)
/// returns all errors of a literal.
///
/// [`Source::recover`] continues after errors. Two texts are read differently by rustc. In `'\n\''` rustc reads one bad literal,
/// and `source` reads the literal `'\n\'` and an open quote. A CR in the white space after an escaped line end is accepted by
/// rustc, and rejected by [`Lit::check`].
///
/// ```
/// use navyspindle::{source, ListError};
///
/// let text = "let a = \"x\\ty\"; let b = 0b102; // \"no\"";
/// for item in source(text) {
///     let (range, literal) = item?;
///     match literal.check() {
///         Ok(()) => assert_eq!((range, literal.text()), (8..14, r#""x\ty""#)),
///         Err(error) => {
///             let error = error.shifted(range.start);
///             assert_eq!(error.to_string(), "invalid digit for this base at byte 28");
///         }
///     }
/// }
/// # Ok::<(), ListError>(())
/// ```
pub fn source(text: &str) -> Source<'_> {
    Source {
        text,
        tokens: Sources::new(text),
        is_done: false,
    }
}

impl<'t> Source<'t> {
    /// Iterates over the remaining literals and over every error, and continues after each error. An error that was already
    /// returned isn't returned again.
    ///
    /// After a quote that isn't closed, reading continues in the next line. After `'` or `b'`, an escaped line end continues the
    /// line. A comment that isn't closed takes the rest of the text. The range of an error reaches to the end of the text.
    ///
    /// The time grows with the text. Only a raw string that isn't closed costs a separate search of the rest. At most one such
    /// search is made for each number of hashes that is smaller than those before.
    ///
    /// ```
    /// use navyspindle::source;
    ///
    /// let text = "f(\"a);\nlet b = 'x';\ng('ab');\n";
    /// let shown: Vec<_> = source(text)
    ///     .recover()
    ///     .map(|item| match item {
    ///         Ok((range, literal)) => format!("{}: {}", range.start, literal.text()),
    ///         Err(error) => format!("{}: {}", error.offset(), error.kind()),
    ///     })
    ///     .collect();
    /// assert_eq!(shown, ["2: unclosed quote", "15: 'x'", "22: 'ab'"]);
    /// ```
    pub fn recover(self) -> Recover<'t> {
        let mut tokens = Recovery::resume(self.text, self.tokens.rest());
        if self.is_done {
            tokens.next_literal();
        }
        Recover {
            text: self.text,
            tokens,
        }
    }
}

impl<'t> Iterator for Source<'t> {
    type Item = Item<'t>;

    fn next(&mut self) -> Option<Self::Item> {
        if self.is_done {
            return None;
        }
        match next_source_literal(&mut self.tokens) {
            SourceStep::Literal(token, found) => return Some(Ok(literal_of(token, found))),
            SourceStep::End => self.is_done = true,
            SourceStep::Rejected(error) => {
                self.is_done = true;
                return Some(Err(ListError::of_source(self.text, error)));
            }
        }
        None
    }
}

impl FusedIterator for Source<'_> {}

/// A clone and the original iterator advance independently.
impl Clone for Source<'_> {
    fn clone(&self) -> Self {
        Source {
            text: self.text,
            tokens: Sources::resume(self.text, self.tokens.rest()),
            is_done: self.is_done,
        }
    }
}

/// Prints the rest of the source.
impl fmt::Debug for Source<'_> {
    fn fmt(&self, f: &mut fmt::Formatter<'_>) -> fmt::Result {
        f.debug_tuple("Source").field(&self.tokens.rest()).finish()
    }
}

/// An iterator over the literals and the errors of a whole Rust source, each with its byte range. See [`Source::recover`].
///
/// ```
/// use navyspindle::{source, Recover};
///
/// let items: Recover = source("f(\"a);\ng(1);").recover();
/// let are_literals: Vec<bool> = items.map(|item| item.is_ok()).collect();
/// assert_eq!(are_literals, [false, true]);
/// ```
#[must_use = "an iterator does nothing until it is asked"]
pub struct Recover<'t> {
    text: &'t str,
    tokens: Recovery<'t>,
}

impl<'t> Iterator for Recover<'t> {
    type Item = Item<'t>;

    fn next(&mut self) -> Option<Self::Item> {
        match next_recovered_literal(&mut self.tokens) {
            SourceStep::Literal(token, found) => Some(Ok(literal_of(token, found))),
            SourceStep::End => None,
            SourceStep::Rejected(error) => Some(Err(ListError::of_source(self.text, error))),
        }
    }
}

impl FusedIterator for Recover<'_> {}

/// A clone and the original iterator advance independently.
impl Clone for Recover<'_> {
    fn clone(&self) -> Self {
        Recover {
            text: self.text,
            tokens: self.tokens.fork(),
        }
    }
}

/// Prints the rest of the source.
impl fmt::Debug for Recover<'_> {
    fn fmt(&self, f: &mut fmt::Formatter<'_>) -> fmt::Result {
        f.debug_tuple("Recover").field(&self.tokens.rest()).finish()
    }
}

#[cfg(test)]
mod tests {
    use super::{source, Item};
    use crate::rl_lexer::{LexKind, Sources};
    use std::{format, string::String, vec::Vec};

    /// The parts of which the test texts are made: delimiters of quotes and comments, characters that combine with these, and
    /// characters that end a search for a quote.
    const PARTS: [&str; 16] = [
        "\"", "'", "\\", "r", "r#\"", "\"#", "#", "b'", "/*", "*/", "/", "//", "\n", "\n", "a",
        " 1 ",
    ];

    /// Returns the byte ranges of the literals and the byte offsets of the errors that `recover` returns, as texts.
    fn recovered(text: &str) -> Vec<String> {
        let shown = |item: Item<'_>| match item {
            Ok((range, _)) => format!("{range:?}"),
            Err(error) => format!("{} {:?}", error.offset(), error.kind()),
        };
        source(text).recover().map(shown).collect()
    }

    /// Returns the expected ranges and errors. After each error this function lexes the following lines as a new source, and
    /// searches them again each time.
    fn by_lines(text: &str) -> Vec<String> {
        let (mut shown, mut lines) = (Vec::new(), text);
        loop {
            let front = text.len() - lines.len();
            let mut tokens = Sources::new(lines);
            while let Some(token) = tokens.next_literal() {
                shown.push(format!("{:?}", front + token.lo..front + token.hi));
            }
            let Some(error) = tokens.error() else {
                return shown;
            };
            shown.push(format!("{} {:?}", front + error.at, error.kind));
            match tokens.rest().split_once('\n') {
                Some((_, following)) if error.kind == LexKind::UnclosedQuote => lines = following,
                _ => return shown,
            }
        }
    }

    #[test]
    fn as_by_lines() {
        let (mut state, mut compared, mut errors) = (7_u64, 0, 0);
        while compared < 60_000 {
            let mut text = String::new();
            for _ in 0..compared % 24 {
                state = state.wrapping_mul(0x5851_F42D_4C95_7F2D).wrapping_add(1);
                text += PARTS[(state >> 60) as usize];
            }
            state = state.wrapping_add(1);
            // The reference function doesn't handle an escaped line end after a character's quote, which continues the line.
            if !text.contains("\\\n") {
                let expected = by_lines(&text);
                errors +=
                    usize::from(expected.iter().filter(|it| it.contains("Unclosed")).count() > 1);
                assert_eq!(recovered(&text), expected, "{text:?}");
                compared += 1;
            }
        }
        assert!(errors > 6_000, "{errors}");
    }
}
