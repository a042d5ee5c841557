//! Parsing of the literal at the start of a text, for parsers that read literals among their own tokens.

use crate::list::parse_list;
use crate::list_error::ListError;
use crate::lit::Lit;
use crate::rl_cursors::{leading_literal, leading_signed_literal, LeadingLiteral};
use crate::rl_lexer::{first_source_token, whitespace};
use crate::rl_syntax::classes::skip_white;
use crate::rl_syntax::lines::split_line;
use alloc::borrow::Cow;
use core::iter;
use core::ops::Range;

/// Returns the literal, and the text after it.
fn split(leading: LeadingLiteral<'_>) -> (Lit<'_>, &str) {
    let literal = Lit::of_token(Cow::Borrowed(leading.text), leading.found);
    (literal, leading.following)
}

impl<'t> Lit<'t> {
    /// Parses the literal at the start of the text. Returns the literal, and the text after it.
    ///
    /// Returns `None` if something else begins the text: an identifier, a punctuation character, a lifetime, white space or a
    /// comment ([`skip_trivia`] skips these two), or a quote that isn't closed.
    ///
    /// The literal ends where [`source`](crate::source) ends its token. A token without a value, such as `'\q'`, is returned as
    /// [`Lit::Verbatim`]. A minus isn't part of the literal; see [`Lit::parse_prefix_signed`]. The time grows with the token, not
    /// with the text. If the first characters can't begin a literal, at most five characters are read.
    ///
    /// The token is read as [`Lit::of_text`] reads it, so `0b12` is a float. [`Lit::check`] applies Rust's grammar.
    ///
    /// [`Lit::parse_next`] skips white space and comments. It returns an error if the text after them doesn't begin with a literal.
    ///
    /// A parser reads literals among its own tokens like this:
    ///
    /// ```
    /// use navyspindle::{skip_trivia, Lit};
    ///
    /// /// Returns a sum of integers, and the text after it.
    /// fn sum(text: &str) -> Option<(u32, &str)> {
    ///     let (literal, rest) = Lit::parse_prefix(skip_trivia(text))?;
    ///     let Lit::Int(literal) = literal else { return None };
    ///     let left: u32 = literal.value().ok()?;
    ///     match skip_trivia(rest).strip_prefix('+') {
    ///         Some(following) => sum(following).map(|(right, rest)| (left + right, rest)),
    ///         None => Some((left, rest)),
    ///     }
    /// }
    /// assert_eq!(sum("1 + 0x2f /* two */ + 3; x"), Some((51, "; x")));
    /// ```
    #[must_use]
    pub fn parse_prefix(text: &'t str) -> Option<(Lit<'t>, &'t str)> {
        leading_literal(text).map(split)
    }

    /// Skips white space and plain comments, and parses the literal after them like [`Lit::parse_prefix`]. Returns the literal, and the
    /// text after it.
    ///
    /// # Errors
    ///
    /// Returns an error if the text after the white space and comments doesn't begin with a literal. For a minus, the kind is
    /// [`NotALiteral`](crate::SyntaxErrorKind::NotALiteral). At the end of the text, the kind is
    /// [`EndOfInput`](crate::SyntaxErrorKind::EndOfInput). Any other error has the kind and the range of the error of [`parse_list`].
    ///
    /// ```
    /// use navyspindle::Lit;
    ///
    /// let (literal, rest) = Lit::parse_next("/* a */ 1u8 + 2")?;
    /// assert_eq!((literal.text(), rest), ("1u8", " + 2"));
    /// let error = Lit::parse_next(" x + 1").unwrap_err();
    /// assert_eq!((error.kind().message(), error.range()), ("not a literal", 1..2));
    /// # Ok::<(), navyspindle::ListError>(())
    /// ```
    #[inline]
    pub fn parse_next(text: &'t str) -> Result<(Lit<'t>, &'t str), ListError> {
        let rest = skip_trivia(text);
        Lit::parse_prefix(rest).ok_or_else(|| match parse_list(text).next() {
            Some(Err(error)) if !rest.starts_with('-') => error,
            found => ListError::no_literal(text.len() - rest.len(), found.is_some()),
        })
    }

    /// Parses the literal at the start of the text like [`Lit::parse_prefix`], or a minus and the number directly after it.
    ///
    /// ```
    /// use navyspindle::Lit;
    ///
    /// let (literal, rest) = Lit::parse_prefix_signed("-1.5, 2").unwrap();
    /// assert_eq!((literal.text(), rest), ("-1.5", ", 2"));
    /// assert!(Lit::parse_prefix_signed("- 1").is_none());
    /// assert!(Lit::parse_prefix_signed("-'a'").is_none());
    /// ```
    #[must_use]
    pub fn parse_prefix_signed(text: &'t str) -> Option<(Lit<'t>, &'t str)> {
        leading_signed_literal(text).map(split)
    }
}

/// Returns the text after the white space and the plain comments at its start. A doc comment isn't skipped, and neither is a block
/// comment that isn't closed.
///
/// So the result begins with `//` or `/*` only if one of these two begins it. Look for them before you take a `/` as an operator.
/// [`parse_list(rest).next()`](crate::parse_list) returns the error.
///
/// ```
/// use navyspindle::{parse_list, skip_trivia};
///
/// assert_eq!(skip_trivia(" /* a */ // b\n\t1"), "1");
/// assert_eq!(skip_trivia("/// doc"), "/// doc");
/// let rest = skip_trivia(" /* open");
/// assert!(rest.starts_with("/*"));
/// let error = parse_list(rest).next().unwrap().unwrap_err();
/// assert_eq!(error.kind().message(), "unclosed block comment");
/// ```
#[must_use]
pub fn skip_trivia(text: &str) -> &str {
    whitespace::skip(text)
}

/// Iterates over the comments that [`skip_trivia`] skips, in order. Each item is the byte range of a comment in the text.
///
/// A line comment ends before its line feed. A doc comment isn't among the items: it is a token, which [`skip_token`] skips. A block
/// comment that isn't closed isn't either. The text that `skip_trivia` returns then begins with `/*`.
///
/// The function `comments` of this example returns all comments of a text, such as for a highlighter:
///
/// ```
/// use navyspindle::{leading_comments, skip_token, skip_trivia};
///
/// fn comments(text: &str) -> Vec<&str> {
///     let (mut rest, mut found) = (text, Vec::new());
///     loop {
///         found.extend(leading_comments(rest).map(|range| &rest[range]));
///         rest = skip_trivia(rest);
///         // A doc comment, or a block comment that isn't closed.
///         let is_comment = rest.starts_with("//") || rest.starts_with("/*");
///         let following = skip_token(rest).unwrap_or("");
///         if is_comment {
///             found.push(&rest[..rest.len() - following.len()]);
///         }
///         if following.is_empty() {
///             return found;
///         }
///         rest = following;
///     }
/// }
///
/// let text = "/* a */ f(x, \"// b\"); // c\n/// d\nfn g() {} /* e";
/// assert_eq!(comments(text), ["/* a */", "// c", "/// d", "/* e"]);
/// ```
#[inline]
pub fn leading_comments(text: &str) -> impl Iterator<Item = Range<usize>> + Clone + '_ {
    let (mut rest, following) = (text, skip_trivia(text));
    iter::from_fn(move || {
        rest = skip_white(rest);
        if rest.len() <= following.len() {
            return None;
        }
        let start = text.len() - rest.len();
        rest = match rest.strip_prefix("/*") {
            Some(inside) => whitespace::after_block(inside)?,
            None => split_line(rest).1,
        };
        Some(start..text.len() - rest.len())
    })
}

/// Returns the text after its first token, or `None` if the text doesn't begin with a token.
///
/// A token is a literal, an identifier, a lifetime, a doc comment, or one punctuation character, delimiter or other character. The
/// result is `None` at the end of the text, at white space or a comment that isn't a doc comment ([`skip_trivia`] skips these two),
/// and at a quote or a block comment that isn't closed.
///
/// The tokens are those of [`source`](fn@crate::source). This loop over a text skips the tokens that aren't literals one by one. It
/// ends at the first quote or block comment that isn't closed, and its time is proportional to the length of the text:
///
/// ```
/// use navyspindle::{skip_trivia, skip_token, Lit};
///
/// fn strings(text: &str) -> Vec<Lit<'_>> {
///     let (mut rest, mut found) = (skip_trivia(text), Vec::new());
///     while let Some(following) = skip_token(rest) {
///         if let Some((literal @ Lit::Str(_), _)) = Lit::parse_prefix(rest) {
///             found.push(literal);
///         }
///         rest = skip_trivia(following);
///     }
///     found
/// }
///
/// let found = strings(r##"f(é, 'a, "b", r#"c"#) // "d""##);
/// assert_eq!(found.iter().map(Lit::text).collect::<Vec<_>>(), [r#""b""#, r##"r#"c"#"##]);
/// ```
///
/// A loop that continues after the unclosed token, such as on the next line, may take time that grows with the square of the length:
/// each raw string or block comment that isn't closed costs a search of the whole rest. [`Source::recover`](crate::Source::recover)
/// makes at most one of these searches for each number of hashes, but returns only literals and errors.
#[must_use]
pub fn skip_token(text: &str) -> Option<&str> {
    if skip_trivia(text).len() < text.len() {
        return None;
    }
    first_source_token(text).map(|(_, following)| following)
}
