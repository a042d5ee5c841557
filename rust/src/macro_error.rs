//! Errors of procedural macros.

use crate::kind::Kind;
use crate::macro_places::Place;
use crate::parse_error::ParseError;
use crate::value::ValueError;
use alloc::string::{String, ToString};
use alloc::vec::{self, Vec};
use core::num::{ParseFloatError, ParseIntError};
use core::{fmt, iter};
use proc_macro::{
    Delimiter, Group, LexError, Literal, Punct, Spacing, Span, TokenStream, TokenTree,
};

/// An error in the input of a procedural macro, with the tokens that the error is about.
///
/// `?` converts other errors of this crate to a `MacroError` at the macro's call. `?` keeps the span of a `MacroError`.
/// `.at(span)?` moves the error to a token; see [`AtSpan`]. In this example, `LitStr::new` needs the feature `writers`.
///
/// ```no_run
/// extern crate proc_macro;
/// use navyspindle::{next_literal_of, AtSpan, LitInt, LitStr, MacroError};
/// use proc_macro::TokenStream;
///
/// /// `repeat!("ab", 2)` is `"abab"`.
/// // #[proc_macro]
/// pub fn repeat(input: TokenStream) -> TokenStream {
///     repeated(input).unwrap_or_else(|error| error.to_compile_error())
/// }
///
/// fn repeated(input: TokenStream) -> Result<TokenStream, MacroError> {
///     let mut tokens = input.into_iter();
///     let (string, span) = next_literal_of::<LitStr>(&mut tokens)?;
///     tokens.next();
///     let (count, at) = next_literal_of::<LitInt>(&mut tokens)?;
///     let count: u8 = count.value().at(at)?;
///     LitStr::new(&string.value().repeat(count.into())).to_token_stream(span)
/// }
/// ```
///
/// A `MacroError` can be sent to another thread. On another thread it has its messages but no spans, because `proc_macro` works
/// only on the macro's thread. There `span` and `to_compile_error` call `Span::call_site()`, which panics outside of a macro.
#[doc(alias = "Error")]
#[derive(Clone)]
pub struct MacroError {
    first: Message,
    others: Vec<Message>,
}

/// The message of one error, and the tokens that the error is about. `place` is `None` if the error is at the macro's call.
#[derive(Clone)]
struct Message {
    text: String,
    place: Option<Place>,
}

impl Message {
    /// Returns the spans of the first and the last token that the error is about.
    #[inline]
    fn spans(&self) -> (Span, Span) {
        match &self.place {
            Some(place) => place.spans(),
            None => (Span::call_site(), Span::call_site()),
        }
    }

    /// Returns a call of `compile_error!`. The compiler shows the error from the call's first token to its last.
    #[inline]
    fn to_compile_error(&self) -> TokenStream {
        let (first, last) = self.spans();
        let text = spanned(Literal::string(&self.text).into(), last);
        call("::core::compile_error!", text.into(), first, last)
    }
}

/// Returns a call of the macro `path`, from the span `first` to the span `last`.
fn call(path: &str, arguments: TokenStream, first: Span, last: Span) -> TokenStream {
    let path: TokenStream = path.parse().expect("tokens");
    let group = Group::new(Delimiter::Brace, arguments).into();
    let path = path.into_iter().map(|tree| spanned(tree, first));
    path.chain([spanned(group, last)]).collect()
}

/// Returns the token tree with the span `span`.
#[inline]
pub(crate) fn spanned(mut tree: TokenTree, span: Span) -> TokenTree {
    tree.set_span(span);
    tree
}

impl MacroError {
    /// Creates an error with the message `message` at `span`.
    ///
    /// ```no_run
    /// extern crate proc_macro;
    /// let error = navyspindle::MacroError::new("expected a comma", proc_macro::Span::call_site());
    /// assert_eq!(error.to_string(), "expected a comma");
    /// ```
    #[must_use]
    pub fn new(message: impl fmt::Display, span: Span) -> Self {
        MacroError::between(message, span, span)
    }

    /// Creates an error with the message `message`. Its tokens are those from `first` to `last`.
    ///
    /// ```no_run
    /// extern crate proc_macro;
    /// use navyspindle::MacroError;
    /// use proc_macro::TokenTree;
    ///
    /// fn unexpected(minus: &TokenTree, number: &TokenTree) -> MacroError {
    ///     MacroError::between("negative number", minus.span(), number.span())
    /// }
    /// ```
    #[must_use]
    pub fn between(message: impl fmt::Display, first: Span, last: Span) -> Self {
        MacroError::near(message, Some(first), Some(last))
    }

    /// Creates an error at the tokens from `first` to `last`, or at the macro's call.
    pub(crate) fn near(
        message: impl fmt::Display,
        first: Option<Span>,
        last: Option<Span>,
    ) -> Self {
        let place = first.zip(last);
        MacroError::of(
            &message,
            place.map(|(first, last)| Place::between(first, last)),
        )
    }

    #[inline]
    fn of(message: &dyn fmt::Display, place: Option<Place>) -> Self {
        let text = message.to_string();
        MacroError {
            first: Message { text, place },
            others: Vec::new(),
        }
    }

    /// Moves the error to `span`. Errors that `?` or `from` converts are at the macro's call. This method moves them. If errors are
    /// combined, only the first one moves. For a `Result`, use [`AtSpan::at`].
    ///
    /// ```no_run
    /// extern crate proc_macro;
    /// use navyspindle::{LitInt, MacroError};
    /// use proc_macro::Span;
    ///
    /// /// Reads a port. An error of each of the two calls is at `span`.
    /// fn port(text: &str, span: Span) -> Result<u16, MacroError> {
    ///     let port = || -> Result<u16, MacroError> { Ok(LitInt::parse(text)?.value()?) };
    ///     port().map_err(|error| error.at(span))
    /// }
    /// ```
    #[inline]
    #[must_use]
    pub fn at(mut self, span: Span) -> Self {
        self.first.place = Some(Place::between(span, span));
        self
    }

    /// Appends another error, so that the compiler reports all combined errors.
    ///
    /// ```
    /// let attrs = navyspindle::Attrs::parse_text("width = 256, height = -1")?;
    /// let mut error = attrs.number::<u8>("width").unwrap_err();
    /// error.combine(attrs.number::<u8>("height").unwrap_err());
    /// assert_eq!(error.into_iter().count(), 2);
    /// # Ok::<(), navyspindle::MacroError>(())
    /// ```
    #[inline]
    pub fn combine(&mut self, other: MacroError) {
        self.others.push(other.first);
        self.others.extend(other.others);
    }

    /// Combines all of `errors` into one error, in their order. Without errors the result is `Ok`.
    ///
    /// # Errors
    ///
    /// Returns the combined error if `errors` has at least one error.
    ///
    /// ```
    /// use navyspindle::{Attrs, MacroError};
    ///
    /// let attrs = Attrs::parse_text("a = 256, b = 1, c")?;
    /// let errors = attrs.entries().iter().filter_map(|meta| meta.number::<u8>().err());
    /// assert_eq!(MacroError::combine_all(errors).unwrap_err().into_iter().count(), 2);
    /// # Ok::<(), MacroError>(())
    /// ```
    pub fn combine_all(errors: impl IntoIterator<Item = MacroError>) -> Result<(), MacroError> {
        let combined = errors.into_iter().reduce(|mut first, other| {
            first.combine(other);
            first
        });
        combined.map_or(Ok(()), Err)
    }

    /// Creates the error for a literal of another kind than the expected one: `expected string literal, found byte literal`.
    ///
    /// ```no_run
    /// extern crate proc_macro;
    /// use navyspindle::{Kind, MacroError};
    ///
    /// let error = MacroError::expected(Kind::Str, Kind::Byte, proc_macro::Span::call_site());
    /// assert_eq!(error.to_string(), "expected string literal, found byte literal");
    /// ```
    #[inline]
    #[must_use]
    pub fn expected(expected: Kind, found: Kind, span: Span) -> Self {
        MacroError::new(Mismatch(expected, found), span)
    }

    /// Returns the span of the first token that the error is about. If errors are combined, it is the span of the first error.
    ///
    /// ```no_run
    /// extern crate proc_macro;
    /// let error = navyspindle::MacroError::new("no name", proc_macro::Span::call_site());
    /// println!("{:?}", error.span());
    /// ```
    #[inline]
    #[must_use]
    pub fn span(&self) -> Span {
        self.first.spans().0
    }

    /// Returns a call of `compile_error!`, at the error's tokens. A macro returns this call in place of its output, which may be
    /// items, statements, an expression, a type or a pattern.
    ///
    /// If errors are combined, their calls are the arguments of one call, because only one call can be an expression. rustc reports
    /// each of the combined errors, and nothing else.
    ///
    /// ```no_run
    /// extern crate proc_macro;
    /// let error = navyspindle::MacroError::new("no name", proc_macro::Span::call_site());
    /// assert_eq!(error.to_compile_error().to_string(), r#":: core :: compile_error ! { "no name" }"#);
    /// ```
    #[inline]
    #[must_use]
    pub fn to_compile_error(&self) -> TokenStream {
        if self.others.is_empty() {
            return self.first.to_compile_error();
        }
        // `compile_error! { concat! { compile_error! { "a" }, compile_error! { "b" }, } }`. rustc expands the inner calls first.
        let comma = TokenStream::from(TokenTree::Punct(Punct::new(',', Spacing::Alone)));
        let messages = iter::once(&self.first).chain(&self.others);
        let calls = messages.flat_map(|message| [message.to_compile_error(), comma.clone()]);
        let span = self.span();
        let calls = call("::core::concat!", calls.collect(), span, span);
        call("::core::compile_error!", calls, span, span)
    }

    /// Returns the tokens of [`MacroError::to_compile_error`]. This method takes the error by value, so it can be passed to
    /// `unwrap_or_else`.
    ///
    /// ```no_run
    /// extern crate proc_macro;
    /// use navyspindle::{next_literal, MacroError};
    /// use proc_macro::TokenStream;
    ///
    /// // #[proc_macro]
    /// pub fn first(input: TokenStream) -> TokenStream {
    ///     let literal = next_literal(&mut input.into_iter());
    ///     let tokens = literal.and_then(|(literal, span)| literal.to_token_stream(span));
    ///     tokens.unwrap_or_else(MacroError::into_compile_error)
    /// }
    /// ```
    #[inline]
    #[must_use]
    pub fn into_compile_error(self) -> TokenStream {
        self.to_compile_error()
    }
}

/// A `Result` whose error can be moved to a span. It is any `Result` whose error `?` converts to a [`MacroError`].
///
/// Without `.at`, `?` reports a converted error at the macro's call. A `MacroError` keeps its span.
///
/// ```no_run
/// extern crate proc_macro;
/// use navyspindle::{next_literal_of, AtSpan, LitInt, MacroError};
///
/// fn port(input: proc_macro::TokenStream) -> Result<u16, MacroError> {
///     let (number, span) = next_literal_of::<LitInt>(&mut input.into_iter())?;
///     let port: u16 = number.value().at(span)?;
///     Ok(port.max(1024))
/// }
/// ```
pub trait AtSpan<V> {
    /// Returns the value, or the error as a [`MacroError`] at `span`.
    ///
    /// # Errors
    ///
    /// Returns the error of the `Result`, moved by [`MacroError::at`].
    ///
    /// ```no_run
    /// extern crate proc_macro;
    /// use navyspindle::{AtSpan, LitInt, MacroError};
    ///
    /// fn digits(number: &LitInt, span: proc_macro::Span) -> Result<u16, MacroError> {
    ///     number.base10_parse().at(span)
    /// }
    /// ```
    fn at(self, span: Span) -> Result<V, MacroError>;
}

impl<V, E: Into<MacroError>> AtSpan<V> for Result<V, E> {
    #[inline]
    fn at(self, span: Span) -> Result<V, MacroError> {
        self.map_err(|error| error.into().at(span))
    }
}

/// Prints the error's message. If errors are combined, it is the message of the first error.
impl fmt::Display for MacroError {
    fn fmt(&self, f: &mut fmt::Formatter<'_>) -> fmt::Result {
        f.pad(&self.first.text)
    }
}

/// Prints the messages of all combined errors, without their spans.
impl fmt::Debug for MacroError {
    fn fmt(&self, f: &mut fmt::Formatter<'_>) -> fmt::Result {
        let mut tuple = f.debug_tuple("MacroError");
        tuple.field(&self.first.text);
        for other in &self.others {
            tuple.field(&other.text);
        }
        tuple.finish()
    }
}

impl core::error::Error for MacroError {}

/// Iterates over the combined errors, each as an error of its own, in order.
///
/// ```
/// let attrs = navyspindle::Attrs::parse_text("a, b")?;
/// let errors = attrs.check(&[]).unwrap_err();
/// let messages: Vec<_> = errors.into_iter().map(|error| error.to_string()).collect();
/// assert_eq!(messages, ["unknown name `a`", "unknown name `b`"]);
/// # Ok::<(), navyspindle::MacroError>(())
/// ```
impl IntoIterator for MacroError {
    type Item = MacroError;
    type IntoIter = vec::IntoIter<MacroError>;

    fn into_iter(self) -> Self::IntoIter {
        let messages = iter::once(self.first).chain(self.others);
        let errors = messages.map(|first| MacroError {
            first,
            others: Vec::new(),
        });
        errors.collect::<Vec<_>>().into_iter()
    }
}

/// The message for a literal of the wrong kind: the expected kind and the kind that was found.
pub(crate) struct Mismatch(pub(crate) Kind, pub(crate) Kind);

impl fmt::Display for Mismatch {
    fn fmt(&self, f: &mut fmt::Formatter<'_>) -> fmt::Result {
        let Mismatch(expected, found) = self;
        write!(f, "expected {expected}, found {found}")
    }
}

/// Implements `From` for the error types of this crate. The message is the error's message without the byte offset, which means
/// nothing to the user of the macro.
macro_rules! from_errors {
    ($($(#[$doc:meta])* $name:ty: $error:ident => $message:expr,)*) => {$(
        $(#[$doc])*
        impl From<$name> for MacroError {
            #[inline]
            fn from($error: $name) -> Self {
                MacroError::of(&$message, None)
            }
        }
    )*};
}

from_errors! {
    /// Converts a `ParseError`. The message is its [`ParseError::kind`], at the macro's call.
    ParseError: error => error.kind(),
    /// Converts a `ValueError`. The message is its [`ValueError::message`], at the macro's call.
    ValueError: error => error.message(),
    /// Converts an error of [`LitInt::base10_parse`](crate::LitInt::base10_parse). The `MacroError` is at the macro's call.
    ParseIntError: error => error,
    /// Converts an error of [`LitFloat::base10_parse`](crate::LitFloat::base10_parse). The `MacroError` is at the macro's call.
    ParseFloatError: error => error,
    /// Converts an error of `TokenStream::from_str`. The `MacroError` is at the macro's call.
    LexError: error => error,
}

#[cfg(feature = "sources")]
from_errors! {
    /// Converts a `ListError`. The message is its [`ListError::kind`](crate::ListError::kind), at the macro's call.
    crate::ListError: error => error.kind(),
}

#[cfg(feature = "settings")]
from_errors! {
    /// Converts a `SettingError`. The message is its [`SettingError::kind`](crate::SettingError::kind), at the macro's call.
    /// [`MacroInput::error`](crate::MacroInput::error) creates an error at the setting's tokens.
    crate::SettingError: error => error.kind(),
}

#[cfg(feature = "flaws")]
from_errors! {
    /// Converts an `InvalidPiece`. The message is its [`InvalidPiece::kind`](crate::InvalidPiece::kind), at the macro's call.
    crate::InvalidPiece: error => error.kind(),
    /// Converts a `TypeError`. The `MacroError` is at the macro's call.
    crate::TypeError: error => error,
}

#[cfg(test)]
mod tests {
    use super::MacroError;
    use crate::{LitInt, LitStr};
    use std::boxed::Box;
    use std::error::Error;
    use std::format;
    use std::string::ToString;

    fn number(text: &str) -> Result<u8, MacroError> {
        let literal = LitInt::parse(text)?;
        let value = literal.value::<u8>()?;
        Ok(value.max(literal.base10_parse()?))
    }

    #[test]
    fn errors_become_errors_of_macros_without_a_byte() {
        let message = |text| number(text).unwrap_err().to_string();
        assert_eq!(number("0x1F").ok(), Some(31));
        assert_eq!(message("0b2"), "invalid digit for this base");
        assert_eq!(
            message("1.5"),
            "expected integer literal, found floating point literal"
        );
        assert_eq!(message("300"), "number out of range for u8");
        let digits = LitInt::parse("300").map(|it| it.base10_parse::<u8>());
        let error = MacroError::from(digits.expect("an integer").unwrap_err());
        assert_eq!(error.to_string(), "number too large to fit in target type");
    }

    #[test]
    fn every_error_of_the_package_becomes_one() {
        #[cfg(feature = "sources")]
        {
            let error = crate::parse_list("word").find_map(Result::err);
            let error = MacroError::from(error.expect("a word"));
            assert_eq!(error.to_string(), "not a literal");
        }
        #[cfg(feature = "settings")]
        {
            let error = MacroError::from(crate::parse_settings("a = 1, a = 2").unwrap_err());
            assert_eq!(error.to_string(), "repeated name `a`");
            let error = crate::Settings::read("a = ").unwrap_err();
            let words = "unexpected end of input, expected literal";
            assert_eq!(MacroError::from(error).to_string(), words);
        }
        #[cfg(feature = "flaws")]
        {
            let bad = crate::flaws(r#""\q""#).next().expect("a flaw");
            assert_eq!(MacroError::from(bad).to_string(), "unknown escape");
            let error = MacroError::from(crate::TypeError::OutOfRange);
            assert_eq!(error.to_string(), "out of its type's range");
        }
    }

    #[test]
    fn all_errors_of_an_iterator_in_order() {
        let error = |text| MacroError::from(LitInt::parse(text).unwrap_err());
        assert!(MacroError::combine_all([]).is_ok());
        let one = MacroError::combine_all([error("0b2")]).unwrap_err();
        let first = "invalid digit for this base";
        assert_eq!(format!("{one:?}"), format!("MacroError({first:?})"));
        let mut two = error("0o8");
        two.combine(error("1.5"));
        let all = MacroError::combine_all([error("0b2"), two, error("")]).unwrap_err();
        let third = "expected integer literal, found floating point literal";
        let shown = format!("MacroError({first:?}, {first:?}, {third:?}, \"empty text\")");
        assert_eq!(format!("{all:?}"), shown);
        let each: std::vec::Vec<_> = all.into_iter().map(|error| format!("{error:?}")).collect();
        assert_eq!(each.len(), 4);
        assert_eq!(each[2], format!("MacroError({third:?})"));
    }

    #[test]
    fn an_error_moves_to_other_threads() {
        fn moves<T: Send + Sync>() {}
        moves::<MacroError>();
        let mut error = MacroError::from(LitStr::parse("1").unwrap_err());
        error.combine(MacroError::from(LitInt::parse("'").unwrap_err()));
        let shown = std::thread::spawn(move || {
            let boxed: Box<dyn Error + Send + Sync> = error.clone().into();
            format!("{boxed}; {error:?}")
        });
        let first = "expected string literal, found integer literal";
        let second = LitInt::parse("'").unwrap_err().kind();
        let shown = shown.join().expect("no panic");
        assert_eq!(
            shown,
            format!("{first}; MacroError({first:?}, \"{second}\")")
        );
    }
}
