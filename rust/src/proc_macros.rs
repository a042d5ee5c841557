//! Literals among the tokens of procedural macros.

use crate::macro_error::{spanned, MacroError};
use crate::trees::Tree;
use crate::{
    Kind, Lit, LitBool, LitByte, LitByteStr, LitCStr, LitChar, LitFloat, LitInt, LitStr, Located,
};
use alloc::format;
use alloc::string::{String, ToString};
use core::fmt;
use core::ops::Range;
use core::str::FromStr;
use proc_macro::{Delimiter, Ident, Literal, Punct, Spacing, Span, TokenStream, TokenTree};

/// Parses a text as a literal. An error is at `span`.
#[inline]
fn parsed(text: String, span: Option<Span>) -> Result<Lit<'static>, MacroError> {
    Lit::try_from(text).map_err(|error| MacroError::near(error.kind(), span, span))
}

/// Consumes and returns the next literal of a macro's input, with its span.
///
/// The literal may be a literal token, `true` or `false`, a minus and a number, or a literal that a `macro_rules!` macro passes on
/// as `$e:literal`, in a group without delimiters. The span is that of the literal's own token, inside a group too.
///
/// After a minus, the span is that of the number only, because the stable compiler can't join two spans. A
/// [`Located`](crate::Located) has both spans.
///
/// # Errors
///
/// Returns an error if the next token isn't a literal by [`Lit::parse`]. Tokens may be consumed in case of an error.
///
/// ```no_run
/// extern crate proc_macro;
/// use navyspindle::{next_literal, MacroError};
///
/// /// Returns the text of the first literal of `-2.5, 1`.
/// fn first(input: proc_macro::TokenStream) -> Result<String, MacroError> {
///     let (literal, _) = next_literal(&mut input.into_iter())?;
///     Ok(literal.text().to_string())
/// }
/// ```
pub fn next_literal(
    tokens: &mut impl Iterator<Item = TokenTree>,
) -> Result<(Lit<'static>, Span), MacroError> {
    let placed = next_placed(&mut tokens.map(Tree::Token), "literal")?;
    Ok((placed.literal, at(placed.span)))
}

/// Consumes and returns the next literal of a macro's input, which must be of one kind, with its span. It reads like
/// [`next_literal`]. After a minus, the span is that of the number only.
///
/// # Errors
///
/// Returns an error if the next token isn't a literal, is a literal of another kind, or is an integer above 128 bits. The token is
/// consumed, and so is the minus before a number. If there is a minus, the error is at both tokens.
///
/// ```no_run
/// extern crate proc_macro;
/// use navyspindle::{next_literal_of, AtSpan, LitInt, LitStr, MacroError};
///
/// /// A string and a number.
/// fn read(input: proc_macro::TokenStream) -> Result<(String, u8), MacroError> {
///     let mut tokens = input.into_iter();
///     let (name, _) = next_literal_of::<LitStr>(&mut tokens)?;
///     let (number, span) = next_literal_of::<LitInt>(&mut tokens)?;
///     Ok((name.value().into_owned(), number.value().at(span)?))
/// }
/// ```
pub fn next_literal_of<L: LitOfKind>(
    tokens: &mut impl Iterator<Item = TokenTree>,
) -> Result<(L, Span), MacroError> {
    Located::next(tokens).map(Located::into_parts)
}

/// Returns the literal that is the whole input of a macro, which must be of one kind, with its span. It reads like
/// [`next_literal_of`]. After a minus, the span is that of the number only. Without the span, `LitStr::try_from(input)` returns the
/// same literal.
///
/// # Errors
///
/// Returns the errors of [`next_literal_of`], and an error if a token follows the literal.
///
/// ```no_run
/// extern crate proc_macro;
/// use navyspindle::{only_literal_of, LitStr, MacroError};
///
/// /// Reads the input `"a"`.
/// fn path(input: proc_macro::TokenStream) -> Result<String, MacroError> {
///     let (path, _) = only_literal_of::<LitStr>(input)?;
///     Ok(path.into_value().into_owned())
/// }
/// ```
pub fn only_literal_of<L: LitOfKind>(input: TokenStream) -> Result<(L, Span), MacroError> {
    Located::only(input).map(Located::into_parts)
}

mod sealed {
    use crate::Kind;
    use core::ops::Range;

    /// The trait that `next_literal_of` requires of a literal's struct.
    pub trait Kinded {
        const KIND: Kind;

        fn text_of(&self) -> &str;

        /// Returns the range of the text that represents a range of the value. For a number or a `bool` it is the whole text.
        fn range_of(&self, value: Range<usize>) -> Range<usize>;
    }
}

/// A struct for one kind of literals, which [`next_literal_of`] can return. The trait is sealed.
///
/// ```no_run
/// extern crate proc_macro;
/// use navyspindle::{next_literal_of, LitOfKind, MacroError};
///
/// /// Returns the first literal, which must be of kind `L`.
/// fn first<L: LitOfKind>(input: proc_macro::TokenStream) -> Result<L, MacroError> {
///     next_literal_of(&mut input.into_iter()).map(|(literal, _)| literal)
/// }
/// ```
pub trait LitOfKind: sealed::Kinded + TryFrom<Lit<'static>, Error = Lit<'static>> {}

/// A literal among tokens. `span` is the span of its own token. `first` is the span of its minus, or else the same as `span`.
pub(crate) struct Placed {
    pub(crate) literal: Lit<'static>,
    pub(crate) first: Option<Span>,
    pub(crate) span: Option<Span>,
}

impl Placed {
    /// Creates an error at the literal.
    pub(crate) fn error(&self, message: impl fmt::Display) -> MacroError {
        MacroError::near(message, self.first, self.span)
    }
}

/// Returns the span, or that of the macro's call for a token of a text.
#[inline]
pub(crate) fn at(span: Option<Span>) -> Span {
    span.unwrap_or_else(Span::call_site)
}

/// Returns the literal that consists of all tokens of a macro's input. `expected` is the kind that errors name.
pub(crate) fn whole(input: TokenStream, expected: impl fmt::Display) -> Result<Placed, MacroError> {
    let mut trees = input.into_iter().map(Tree::Token);
    let placed = next_placed(&mut trees, expected)?;
    match trees.next() {
        None => Ok(placed),
        Some(tree) => Err(tree.error("unexpected token")),
    }
}

/// Consumes and returns the next literal. `expected` is the kind that errors name.
pub(crate) fn next_placed(
    trees: &mut dyn Iterator<Item = Tree>,
    expected: impl fmt::Display,
) -> Result<Placed, MacroError> {
    let expected: &dyn fmt::Display = &expected;
    match trees.next() {
        Some(tree) if tree.is_mark('-') => negative(trees.next(), &tree, expected),
        Some(tree) => literal_of(&tree, expected),
        None => {
            let message = format_args!("unexpected end of input, expected {expected}");
            Err(MacroError::near(message, None, None))
        }
    }
}

/// Returns the literal that consists of the tree `minus`, and of the tree after it.
#[inline]
fn negative(
    tree: Option<Tree>,
    minus: &Tree,
    expected: &dyn fmt::Display,
) -> Result<Placed, MacroError> {
    let missing = || minus.error(format_args!("expected {expected}"));
    let mut placed = literal_of(&tree.ok_or_else(missing)?, expected)?;
    placed.first = minus.span();
    match &placed.literal {
        number @ (Lit::Int(_) | Lit::Float(_) | Lit::Verbatim(_))
            if !number.text().starts_with('-') =>
        {
            let literal = Lit::try_from(format!("-{number}"));
            placed.literal = literal.map_err(|it| placed.error(it.kind()))?;
            Ok(placed)
        }
        _ => Err(placed.error("expected a number after the minus")),
    }
}

/// Returns the literal that a token tree is, with its span. In a group without delimiters, the span is that of the literal's token.
#[inline]
fn literal_of(tree: &Tree, expected: &dyn fmt::Display) -> Result<Placed, MacroError> {
    let other = |tree: &Tree| tree.error(format_args!("expected {expected}"));
    let (first, span) = (tree.span(), tree.span());
    let literal = if let Some(text) = tree.literal() {
        parsed(text, span)?
    } else if let Some(word) = tree.word() {
        Lit::Bool(LitBool::try_from(word).map_err(|_| other(tree))?)
    } else if tree.delimiter() == Some(Delimiter::None) {
        let mut inside = tree.inside().into_iter();
        let placed = next_placed(&mut inside, expected)?;
        return inside.next().map_or(Ok(placed), |tree| Err(other(&tree)));
    } else {
        return Err(other(tree));
    };
    Ok(Placed {
        literal,
        first,
        span,
    })
}

/// Parses a literal token of the compiler.
impl TryFrom<&Literal> for Lit<'static> {
    type Error = MacroError;

    #[inline]
    fn try_from(literal: &Literal) -> Result<Self, MacroError> {
        parsed(literal.to_string(), Some(literal.span()))
    }
}

/// Returns the literal that a token tree is: a literal token, `true` or `false`, or a group without delimiters that contains only a
/// literal, perhaps after a minus.
impl TryFrom<&TokenTree> for Lit<'static> {
    type Error = MacroError;

    #[inline]
    fn try_from(tree: &TokenTree) -> Result<Self, MacroError> {
        literal_of(&Tree::Token(tree.clone()), &"literal").map(|placed| placed.literal)
    }
}

/// Returns the literal that is the whole input of a macro, as [`next_literal`] reads it. Another token after it is an error.
///
/// ```no_run
/// extern crate proc_macro;
/// use navyspindle::{LitStr, MacroError};
///
/// /// Reads the input `"a"`.
/// fn path(input: proc_macro::TokenStream) -> Result<String, MacroError> {
///     Ok(LitStr::try_from(input)?.into_value().into_owned())
/// }
/// ```
impl TryFrom<TokenStream> for Lit<'static> {
    type Error = MacroError;

    #[inline]
    fn try_from(input: TokenStream) -> Result<Self, MacroError> {
        whole(input, "literal").map(|placed| placed.literal)
    }
}

/// Implements `TryFrom` for an owned token tree, by the implementation for a borrowed one.
macro_rules! of_owned {
    ($tree:ident, $name:ident) => {
        impl TryFrom<$tree> for $name<'static> {
            type Error = MacroError;

            #[inline]
            fn try_from(tree: $tree) -> Result<Self, MacroError> {
                $name::try_from(&tree)
            }
        }
    };
}

of_owned!(Literal, Lit);
of_owned!(TokenTree, Lit);

/// Implements `TryFrom` for the struct of one kind of literals. `$tree` is a type that converts to a token tree.
macro_rules! of_tree {
    ($tree:ident, $name:ident) => {
        impl TryFrom<&$tree> for $name<'static> {
            type Error = MacroError;

            #[inline]
            fn try_from(tree: &$tree) -> Result<Self, MacroError> {
                let tree = Tree::Token(tree.clone().into());
                let placed = literal_of(&tree, &<$name as sealed::Kinded>::KIND)?;
                Located::of(placed).map(Located::into_literal)
            }
        }

        of_owned!($tree, $name);
    };
}

/// Implements the conversions between the compiler's tokens and the structs of these kinds of literals.
macro_rules! of_kinds {
    ($range:expr => $($name:ident $variant:ident)*) => {$(
        of_tree!(Literal, $name);
        of_tree!(TokenTree, $name);

        impl sealed::Kinded for $name<'static> {
            const KIND: Kind = Kind::$variant;

            #[inline]
            fn text_of(&self) -> &str {
                self.text()
            }

            #[inline]
            fn range_of(&self, value: Range<usize>) -> Range<usize> {
                let range: fn(&Self, Range<usize>) -> Range<usize> = $range;
                range(self, value)
            }
        }

        impl LitOfKind for $name<'static> {}

        /// Returns the literal that is the whole input of a macro, as [`next_literal_of`] reads it. Another token after it is an
        /// error.
        impl TryFrom<TokenStream> for $name<'static> {
            type Error = MacroError;

            #[inline]
            fn try_from(input: TokenStream) -> Result<Self, MacroError> {
                only_literal_of(input).map(|(literal, _)| literal)
            }
        }

        impl $name<'_> {
            /// Returns the literal as tokens with the span `span`. See [`Lit::to_token_stream`].
            ///
            /// # Errors
            ///
            /// Returns an error if Rust rejects the literal's text.
            ///
            /// ```no_run
            /// extern crate proc_macro;
            #[cfg_attr(doc, doc = concat!("fn tokens_of(literal: navyspindle::", stringify!($name), ") -> Result<proc_macro::TokenStream, navyspindle::MacroError> {"))]
            ///     literal.to_token_stream(proc_macro::Span::call_site())
            /// }
            /// ```
            #[inline]
            pub fn to_token_stream(&self, span: Span) -> Result<TokenStream, MacroError> {
                tokens_of(self.text(), span)
            }
        }
    )*};
}

of_kinds! { |literal, value| literal.text_range(value) => LitStr Str LitByteStr ByteStr LitCStr CStr LitByte Byte LitChar Char }
of_kinds! { |literal, _| 0..literal.text().len() => LitInt Int LitFloat Float LitBool Bool }

impl Lit<'_> {
    /// Returns the literal as tokens with the span `span`: one token, or a minus and a number.
    ///
    /// # Errors
    ///
    /// Returns an error if Rust rejects the literal's text, which [`Lit::of_text`] doesn't check.
    ///
    /// ```no_run
    /// extern crate proc_macro;
    /// use navyspindle::Lit;
    ///
    /// let tokens = Lit::of_text("-1.5").to_token_stream(proc_macro::Span::call_site())?;
    /// assert_eq!(tokens.into_iter().count(), 2);
    /// # Ok::<(), navyspindle::MacroError>(())
    /// ```
    #[inline]
    pub fn to_token_stream(&self, span: Span) -> Result<TokenStream, MacroError> {
        tokens_of(self.text(), span)
    }
}

#[inline]
pub(crate) fn tokens_of(text: &str, span: Span) -> Result<TokenStream, MacroError> {
    // The compiler itself would report a text that isn't a literal, so the text is checked before.
    let literal = Lit::parse(text).map_err(|error| MacroError::new(error.kind(), span))?;
    if let Lit::Bool(_) = literal {
        return Ok(TokenTree::Ident(Ident::new(text, span)).into());
    }
    let number = text.strip_prefix('-').unwrap_or(text);
    let minus = (number.len() < text.len()).then(|| Punct::new('-', Spacing::Alone).into());
    let literal = Literal::from_str(number).map_err(|error| MacroError::new(error, span))?;
    let trees = minus.into_iter().chain([TokenTree::Literal(literal)]);
    Ok(trees.map(|tree| spanned(tree, span)).collect())
}
