//! Token trees of a macro's input, or of a text.

use crate::macro_error::MacroError;
use crate::value_end::Shape;
use alloc::string::{String, ToString};
use alloc::vec::Vec;
use core::fmt;
use proc_macro::{Delimiter, Spacing, Span, TokenStream, TokenTree};

/// A token tree of the compiler, or one of a text, which has no span.
#[derive(Clone)]
#[cfg_attr(not(any(feature = "sources", feature = "settings")), allow(dead_code))]
pub(crate) enum Tree {
    Token(TokenTree),
    Mark(char, Spacing),
    Word(String),
    Literal(String),
    Group(Delimiter, Vec<Tree>),
}

impl Tree {
    #[inline]
    pub(crate) fn span(&self) -> Option<Span> {
        match self {
            Tree::Token(tree) => Some(tree.span()),
            _ => None,
        }
    }

    /// Returns the span of a group's opening delimiter.
    pub(crate) fn span_open(&self) -> Option<Span> {
        match self {
            Tree::Token(TokenTree::Group(group)) => Some(group.span_open()),
            _ => self.span(),
        }
    }

    #[inline]
    pub(crate) fn mark(&self) -> Option<(char, Spacing)> {
        match self {
            Tree::Token(TokenTree::Punct(punct)) => Some((punct.as_char(), punct.spacing())),
            Tree::Mark(mark, spacing) => Some((*mark, *spacing)),
            _ => None,
        }
    }

    #[inline]
    pub(crate) fn is_mark(&self, mark: char) -> bool {
        self.mark().is_some_and(|it| it.0 == mark)
    }

    #[inline]
    pub(crate) fn word(&self) -> Option<String> {
        match self {
            Tree::Token(TokenTree::Ident(word)) => Some(word.to_string()),
            Tree::Word(word) => Some(word.clone()),
            _ => None,
        }
    }

    #[inline]
    pub(crate) fn literal(&self) -> Option<String> {
        match self {
            Tree::Token(TokenTree::Literal(literal)) => Some(literal.to_string()),
            Tree::Literal(literal) => Some(literal.clone()),
            _ => None,
        }
    }

    #[inline]
    pub(crate) fn delimiter(&self) -> Option<Delimiter> {
        match self {
            Tree::Token(TokenTree::Group(group)) => Some(group.delimiter()),
            Tree::Group(delimiter, _) => Some(*delimiter),
            _ => None,
        }
    }

    /// Returns the trees inside of a group.
    pub(crate) fn inside(&self) -> Vec<Tree> {
        match self {
            Tree::Token(TokenTree::Group(group)) => of_tokens(group.stream()),
            Tree::Group(_, trees) => trees.clone(),
            _ => Vec::new(),
        }
    }

    /// Returns the class of the tree for the search for the end of a value.
    #[inline]
    pub(crate) fn shape(&self) -> Shape {
        if let Some((mark, spacing)) = self.mark() {
            return match (mark, spacing) {
                ('<', Spacing::Joint) => Shape::Joint,
                _ => Shape::Mark(mark),
            };
        }
        match self.word() {
            Some(word) => Shape::of_word(&word),
            None if self.delimiter() == Some(Delimiter::Brace) => Shape::Braces,
            None => Shape::Other,
        }
    }

    /// Creates an error at the tree.
    pub(crate) fn error(&self, message: impl fmt::Display) -> MacroError {
        MacroError::near(message, self.span(), self.span())
    }
}

#[inline]
pub(crate) fn of_tokens(tokens: TokenStream) -> Vec<Tree> {
    tokens.into_iter().map(Tree::Token).collect()
}

/// Returns the compiler's tokens, or an error for the trees of a text.
pub(crate) fn tokens_of(trees: &[Tree]) -> Result<TokenStream, MacroError> {
    let tokens = trees.iter().map(|tree| match tree {
        Tree::Token(tree) => Ok(tree.clone()),
        _ => Err(tree.error("a text has no tokens of the compiler")),
    });
    tokens.collect()
}

#[cfg(any(feature = "sources", feature = "settings"))]
pub(crate) use text::of_text;

/// The token trees of a text. A feature must have the lexer.
#[cfg(any(feature = "sources", feature = "settings"))]
mod text {
    use super::Tree;
    use crate::macro_error::MacroError;
    use crate::rl_lexer::{first_source_token, is_opener, whitespace, Form, SourceForm};
    use alloc::string::ToString;
    use alloc::vec::Vec;
    use core::{fmt, mem};
    use proc_macro::{Delimiter, Spacing};

    /// Returns the token trees of a text.
    pub(crate) fn of_text(text: &str) -> Result<Vec<Tree>, MacroError> {
        let (mut rest, mut trees, mut open) = (whitespace::skip(text), Vec::new(), Vec::new());
        while let Some((form, after)) = first_source_token(rest) {
            let token = &rest[..rest.len() - after.len()];
            let unexpected = || unexpected(format_args!("`{token}`"));
            rest = whitespace::skip(after);
            let tree = match form {
                SourceForm::Token(Form::Literal) => Tree::Literal(token.to_string()),
                SourceForm::Token(Form::Identifier) | SourceForm::RawIdentifier => {
                    Tree::Word(token.to_string())
                }
                SourceForm::Token(Form::Mark(mark)) => match first_source_token(after) {
                    Some((SourceForm::Token(Form::Mark(_)), _)) => Tree::Mark(mark, Spacing::Joint),
                    _ => Tree::Mark(mark, Spacing::Alone),
                },
                SourceForm::Lifetime => {
                    trees.push(Tree::Mark('\'', Spacing::Joint));
                    Tree::Word(token[1..].to_string())
                }
                SourceForm::Token(Form::Delimiter(opening)) if is_opener(opening) => {
                    open.push((opening, mem::take(&mut trees)));
                    continue;
                }
                SourceForm::Token(Form::Delimiter(closing)) => {
                    let (opening, before) = open.pop().unwrap_or((' ', Vec::new()));
                    let delimiter = match (opening, closing) {
                        ('(', ')') => Delimiter::Parenthesis,
                        ('[', ']') => Delimiter::Bracket,
                        ('{', '}') => Delimiter::Brace,
                        _ => return Err(unexpected()),
                    };
                    Tree::Group(delimiter, mem::replace(&mut trees, before))
                }
                _ => return Err(unexpected()),
            };
            trees.push(tree);
        }
        match open.is_empty() && rest.is_empty() {
            true => Ok(trees),
            false => Err(unexpected(format_args!("end of input"))),
        }
    }

    /// Creates the error for a text that isn't token trees.
    fn unexpected(found: fmt::Arguments<'_>) -> MacroError {
        MacroError::near(format_args!("unexpected {found}"), None, None)
    }
}
