//! A literal among the tokens of a macro, with its spans.

use crate::macro_error::{spanned, MacroError, Mismatch};
use crate::proc_macros::{at, next_placed, whole, LitOfKind, Placed};
use crate::trees::Tree;
use alloc::format;
use alloc::string::String;
use core::fmt;
use core::ops::{Deref, Range};
use proc_macro::{Span, TokenStream, TokenTree};

/// A literal of kind `L` among the tokens of a macro, with the spans of its tokens: of its minus too, if it has one.
///
/// It dereferences to the literal. Its errors are at all of its tokens, and [`error_inside`](Located::error_inside) shows a part of
/// the literal.
///
/// ```no_run
/// extern crate proc_macro;
/// use navyspindle::{LitStr, Located, MacroError};
///
/// /// Reads a string without a brace.
/// fn read(input: proc_macro::TokenStream) -> Result<String, MacroError> {
///     let text = Located::<LitStr>::only(input)?;
///     match text.value().find('{') {
///         Some(at) => Err(text.error_inside(at..at + 1, "unexpected `{`")),
///         None => Ok(text.value().into_owned()),
///     }
/// }
/// ```
#[derive(Clone, Debug)]
pub struct Located<L> {
    literal: L,
    first: Option<Span>,
    span: Option<Span>,
}

impl<L: LitOfKind> Located<L> {
    /// Returns the literal, or an error if it is of another kind.
    pub(crate) fn of(placed: Placed) -> Result<Self, MacroError> {
        let Placed {
            literal,
            first,
            span,
        } = placed;
        match L::try_from(literal) {
            Ok(literal) => Ok(Located {
                literal,
                first,
                span,
            }),
            Err(other) => {
                let message = Mismatch(L::KIND, other.kind());
                Err(MacroError::near(message, first, span))
            }
        }
    }

    /// Returns the literal, and the span of its own token.
    #[inline]
    pub(crate) fn into_parts(self) -> (L, Span) {
        let span = self.span();
        (self.literal, span)
    }

    /// Consumes and returns the next literal, as [`next_literal_of`](crate::next_literal_of) does.
    ///
    /// # Errors
    ///
    /// Returns the errors of [`next_literal_of`](crate::next_literal_of).
    ///
    /// ```no_run
    /// extern crate proc_macro;
    /// use navyspindle::{LitStr, Located, MacroError};
    ///
    /// fn first(input: proc_macro::TokenStream) -> Result<Located<LitStr<'static>>, MacroError> {
    ///     Located::next(&mut input.into_iter())
    /// }
    /// ```
    #[inline]
    pub fn next(tokens: &mut impl Iterator<Item = TokenTree>) -> Result<Self, MacroError> {
        Located::of(next_placed(&mut tokens.map(Tree::Token), L::KIND)?)
    }

    /// Returns the literal that is the whole input of a macro, as [`only_literal_of`](crate::only_literal_of) does.
    ///
    /// # Errors
    ///
    /// Returns the errors of [`only_literal_of`](crate::only_literal_of).
    ///
    /// ```no_run
    /// extern crate proc_macro;
    /// use navyspindle::{LitStr, Located, MacroError};
    ///
    /// fn text(input: proc_macro::TokenStream) -> Result<Located<LitStr<'static>>, MacroError> {
    ///     Located::only(input)
    /// }
    /// ```
    #[inline]
    pub fn only(input: TokenStream) -> Result<Self, MacroError> {
        Located::of(whole(input, L::KIND)?)
    }

    /// Returns the literal without its spans.
    ///
    /// ```no_run
    /// extern crate proc_macro;
    /// let text = navyspindle::Located::<navyspindle::LitStr>::only("\"a\"".parse().unwrap())?;
    /// assert_eq!(text.into_literal().into_value(), "a");
    /// # Ok::<(), navyspindle::MacroError>(())
    /// ```
    #[inline]
    #[must_use]
    pub fn into_literal(self) -> L {
        self.literal
    }

    /// Returns the span of the literal's own token, without a minus.
    ///
    /// ```no_run
    /// extern crate proc_macro;
    /// let one = navyspindle::Located::<navyspindle::LitInt>::only("-1".parse().unwrap())?;
    /// println!("{:?}", one.span());
    /// # Ok::<(), navyspindle::MacroError>(())
    /// ```
    #[inline]
    #[must_use]
    pub fn span(&self) -> Span {
        at(self.span)
    }

    /// Creates an error at the literal, with its minus.
    ///
    /// ```no_run
    /// extern crate proc_macro;
    /// let one = navyspindle::Located::<navyspindle::LitInt>::only("-1".parse().unwrap())?;
    /// assert_eq!(one.error("expected a size").to_string(), "expected a size");
    /// # Ok::<(), navyspindle::MacroError>(())
    /// ```
    #[must_use]
    pub fn error(&self, message: impl fmt::Display) -> MacroError {
        MacroError::near(message, self.first, self.span)
    }

    /// Creates an error at the literal, whose message shows a part of the literal: a line of the literal's text, and carets below the
    /// part. The byte range `value` is that of the part in the literal's value. For a number or a `bool`, all of the text is marked.
    ///
    /// A span can't be shortened on the stable compiler, so the message shows the place. rustc prints it in this way:
    ///
    /// ```text
    /// error: no argument `nam`
    ///        "Hello \u{7b}{nam}"
    ///                      ^^^
    /// ```
    ///
    /// ```no_run
    /// extern crate proc_macro;
    /// let text = navyspindle::Located::<navyspindle::LitStr>::only(r#""\x41b""#.parse().unwrap())?;
    /// assert_eq!(text.error_inside(1..2, "no `b`").to_string(), "no `b`\n\"\\x41b\"\n     ^");
    /// # Ok::<(), navyspindle::MacroError>(())
    /// ```
    #[must_use]
    pub fn error_inside(&self, value: Range<usize>, message: impl fmt::Display) -> MacroError {
        let range = self.literal.range_of(value);
        self.error(format_args!(
            "{message}\n{}",
            marked(self.literal.text_of(), range)
        ))
    }

    /// Returns the literal as tokens with its spans.
    ///
    /// # Errors
    ///
    /// Returns no error for a literal that was read from tokens.
    ///
    /// ```no_run
    /// extern crate proc_macro;
    /// let one = navyspindle::Located::<navyspindle::LitInt>::only("-1".parse().unwrap())?;
    /// assert_eq!(one.to_token_stream()?.into_iter().count(), 2);
    /// # Ok::<(), navyspindle::MacroError>(())
    /// ```
    pub fn to_token_stream(&self) -> Result<TokenStream, MacroError> {
        let trees = crate::proc_macros::tokens_of(self.literal.text_of(), self.span())?.into_iter();
        Ok(trees
            .map(|tree| match tree {
                TokenTree::Punct(_) => spanned(tree, at(self.first)),
                _ => tree,
            })
            .collect())
    }
}

impl<L> Deref for Located<L> {
    type Target = L;

    #[inline]
    fn deref(&self) -> &L {
        &self.literal
    }
}

/// Returns the line of the text that the range begins in, and below it a caret for each character of the range in this line.
fn marked(text: &str, range: Range<usize>) -> String {
    let start = text[..range.start].rfind('\n').map_or(0, |at| at + 1);
    let line = text[start..].lines().next().unwrap_or("");
    let (before, rest) = line.split_at(range.start - start);
    let len = rest
        .char_indices()
        .take_while(|it| it.0 < range.len())
        .count();
    // A tab in the line is a tab below it too.
    let spaces = before.chars().map(|c| if c == '\t' { c } else { ' ' });
    let spaces: String = spaces.collect();
    format!("{line}\n{spaces}{:^<1$}", "", len.max(1))
}

#[cfg(test)]
mod tests {
    use super::marked;

    #[test]
    fn the_line_and_the_characters_are_marked() {
        assert_eq!(marked(r#""aé\n{b}""#, 6..9), "\"aé\\n{b}\"\n     ^^^");
        assert_eq!(marked("\"a\n\tb\u{e9}c\nd\"", 5..8), "\tb\u{e9}c\n\t ^^");
        assert_eq!(marked("\"a\nb\"", 1..4), "\"a\n ^");
        assert_eq!(marked("\"\"", 1..1), "\"\"\n ^");
    }
}
