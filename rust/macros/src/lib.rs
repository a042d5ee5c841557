//! Procedural macros that read literals with the package, for the tests in `user`.

mod attributes;
mod growth;
mod identifiers;
mod kept;
mod places;
mod written;

use navyspindle::{
    next_literal, next_literal_of, next_value, only_literal_of, write_str, AtSpan, Key, Lit,
    LitInt, LitStr, MacroError, MacroInput,
};
use proc_macro::{Punct, Spacing, Span, TokenStream, TokenTree};
use std::iter::Peekable;

/// Returns the output of a macro, or calls of `compile_error!` for its error.
fn or_error(made: Result<TokenStream, MacroError>) -> TokenStream {
    made.unwrap_or_else(MacroError::into_compile_error)
}

/// Parses a text as tokens.
fn tokens_of(text: &str) -> TokenStream {
    text.parse().expect("tokens")
}

/// Reads the literals of the input, which are separated by commas, with their spans.
fn literals_of(input: TokenStream) -> Result<Vec<(Lit<'static>, Span)>, MacroError> {
    let (mut tokens, mut literals) = (input.into_iter().peekable(), Vec::new());
    while tokens.peek().is_some() {
        literals.push(next_literal(&mut tokens)?);
        take_comma(&mut tokens)?;
    }
    Ok(literals)
}

/// Consumes a comma, or nothing at the end of the input.
fn take_comma(tokens: &mut Peekable<impl Iterator<Item = TokenTree>>) -> Result<(), MacroError> {
    match tokens.next() {
        None => Ok(()),
        Some(TokenTree::Punct(mark)) if mark.as_char() == ',' => Ok(()),
        Some(tree) => Err(MacroError::new("expected `,`", tree.span())),
    }
}

/// Returns an array with a triple for each literal of the input: its kind, its suffix and its text.
#[proc_macro]
pub fn literals(input: TokenStream) -> TokenStream {
    or_error(literals_of(input).map(|literals| {
        let triple = |(literal, _): &(Lit, Span)| {
            let (kind, suffix) = (literal.kind(), literal.suffix());
            format!(
                "(\"{kind}\", {}, {}),",
                write_str(suffix),
                write_str(literal.text())
            )
        };
        tokens_of(&format!(
            "[{}]",
            literals.iter().map(triple).collect::<String>()
        ))
    }))
}

/// Returns an array of the bytes that a string literal encodes as pairs of hexadecimal digits. White space between pairs is
/// ignored.
#[proc_macro]
pub fn hex_bytes(input: TokenStream) -> TokenStream {
    or_error(bytes_of(input))
}

fn bytes_of(input: TokenStream) -> Result<TokenStream, MacroError> {
    let tree = input.into_iter().next();
    let tree = tree.ok_or_else(|| MacroError::new("expected string literal", Span::call_site()))?;
    let digits: String = LitStr::try_from(&tree)?
        .value()
        .split_whitespace()
        .collect();
    let pair = |at: usize| u8::from_str_radix(digits.get(at..at + 2)?, 16).ok();
    let bytes: Option<Vec<u8>> = (0..digits.len()).step_by(2).map(pair).collect();
    match bytes {
        Some(bytes) => Ok(tokens_of(&format!("{bytes:?}"))),
        None => Err(MacroError::new(
            "expected pairs of hexadecimal digits",
            tree.span(),
        )),
    }
}

/// Returns the sum of the integers in the input.
#[proc_macro]
pub fn sum(input: TokenStream) -> TokenStream {
    or_error(sum_of(input))
}

fn sum_of(input: TokenStream) -> Result<TokenStream, MacroError> {
    let (mut tokens, mut sum) = (input.into_iter().peekable(), 0_i128);
    while tokens.peek().is_some() {
        let (int, span) = next_literal_of::<LitInt>(&mut tokens)?;
        let number = int.base10_parse::<i128>();
        sum += number.map_err(|error| MacroError::new(error, span))?;
        take_comma(&mut tokens)?;
    }
    LitInt::unsuffixed(sum).to_token_stream(Span::call_site())
}

/// Returns the input's literal, after parsing it and converting the result to tokens.
#[proc_macro]
pub fn again(input: TokenStream) -> TokenStream {
    or_error(
        next_literal(&mut input.into_iter())
            .and_then(|(literal, span)| literal.to_token_stream(span)),
    )
}

/// Returns a string literal with the printed form of the tokens that the input's literal is converted to.
#[proc_macro]
pub fn printed(input: TokenStream) -> TokenStream {
    let tokens = again(input).to_string();
    tokens_of(&write_str(&tokens))
}

/// Returns an array with a pair of texts for each entry `LITERAL: VALUE` of the input, the value without spaces, or the error in the
/// form of `strings_errors`.
#[proc_macro]
pub fn entries_of(input: TokenStream) -> TokenStream {
    let pairs = |input: TokenStream| -> Result<String, MacroError> {
        let (mut tokens, mut pairs) = (input.into_iter().peekable(), String::new());
        while tokens.peek().is_some() {
            let (key, _) = next_literal(&mut tokens)?;
            tokens.next();
            let value = next_value(&mut tokens)?.to_string().replace(' ', "");
            pairs += &format!("({}, {}),", write_str(key.text()), write_str(&value));
            take_comma(&mut tokens)?;
        }
        Ok(pairs)
    };
    match pairs(input) {
        Ok(pairs) => tokens_of(&format!("[{pairs}]")),
        Err(error) => shown_errors(error),
    }
}

/// Returns the literal that is the whole input, or the error in the form of `strings_errors`.
#[proc_macro]
pub fn whole(input: TokenStream) -> TokenStream {
    let tokens =
        Lit::try_from(input).and_then(|literal| literal.to_token_stream(Span::call_site()));
    tokens.unwrap_or_else(shown_errors)
}

/// Returns a string literal with the value of the string that is the whole input, or the error in the form of `strings_errors`.
#[proc_macro]
pub fn whole_string(input: TokenStream) -> TokenStream {
    match LitStr::try_from(input) {
        Ok(literal) => tokens_of(&write_str(&literal.value())),
        Err(error) => shown_errors(error),
    }
}

/// The whole input must be one string literal. Returns two strings: the text of the literal, and the source text at its span. Its errors
/// are those of `whole_string`.
#[proc_macro]
pub fn only_string(input: TokenStream) -> TokenStream {
    match only_literal_of::<LitStr>(input) {
        Ok((literal, span)) => {
            let place = span.source_text().expect("a source");
            tokens_of(&format!(
                "({}, {})",
                write_str(literal.text()),
                write_str(&place)
            ))
        }
        Err(error) => shown_errors(error),
    }
}

/// Returns the input's integer as a `u8`, or the error in the form of `strings_errors`. The error of the value is at the integer.
#[proc_macro]
pub fn small(input: TokenStream) -> TokenStream {
    let value = |input: TokenStream| -> Result<u8, MacroError> {
        let (integer, span) = next_literal_of::<LitInt>(&mut input.into_iter())?;
        // Both errors, of different types, are moved to the integer.
        let value: u8 = integer.value().at(span)?;
        Ok(value.max(integer.base10_parse().at(span)?))
    };
    match value(input) {
        Ok(value) => tokens_of(&format!("{value}u8")),
        Err(error) => shown_errors(error),
    }
}

/// Returns a string literal with the text that `MacroInput` makes of the input's tokens.
#[proc_macro]
pub fn text(input: TokenStream) -> TokenStream {
    let text = MacroInput::of(input);
    tokens_of(&write_str(text.text()))
}

/// Returns a string literal with the message of the error that the macro `sum` reports.
#[proc_macro]
pub fn sum_error(input: TokenStream) -> TokenStream {
    match sum_of(input) {
        Ok(sum) => sum,
        Err(error) => {
            // The tokens that the compiler would receive as the macro's output.
            assert!(error
                .to_compile_error()
                .to_string()
                .contains("compile_error"));
            tokens_of(&write_str(&error.to_string()))
        }
    }
}

/// Returns a combined error for the literals of the input that aren't strings. The literals are separated by commas.
fn no_strings(input: TokenStream) -> Result<(), MacroError> {
    let (mut tokens, mut errors) = (input.into_iter().peekable(), Vec::new());
    while tokens.peek().is_some() {
        errors.extend(next_literal_of::<LitStr>(&mut tokens).err());
        take_comma(&mut tokens)?;
    }
    MacroError::combine_all(errors)
}

/// Expands to nothing if each literal of the input is a string, and to the errors of the other literals otherwise.
#[proc_macro]
pub fn strings(input: TokenStream) -> TokenStream {
    or_error(no_strings(input).map(|()| TokenStream::new()))
}

/// Returns an array with a triple for each error that `strings` reports: its message, and the source text at the first and at the last
/// token of the error.
#[proc_macro]
pub fn strings_errors(input: TokenStream) -> TokenStream {
    match no_strings(input) {
        Ok(()) => tokens_of("[]"),
        Err(error) => shown_errors(error),
    }
}

/// Returns the array of triples of `strings_errors` for the errors that are combined in `error`.
fn shown_errors(error: MacroError) -> TokenStream {
    let source = |tree: &TokenTree| write_str(&tree.span().source_text().expect("a source"));
    let shown = error.into_iter().map(|error| {
        let call: Vec<TokenTree> = error.to_compile_error().into_iter().collect();
        let TokenTree::Group(message) = &call[7] else {
            panic!("no call of compile_error")
        };
        let (first, last) = (source(&call[0]), source(&call[7]));
        let text = message.stream().into_iter().next().expect("a message");
        // If a compiler marks the message, it marks the last token of the error, because the message has that token's span.
        assert_eq!(source(&text), last);
        format!("({text}, {first}, {last}),")
    });
    tokens_of(&format!("[{}]", shown.collect::<String>()))
}

/// Returns a slice of pairs of literals with the same value. The compiler's own functions write the first literal of a pair, and
/// the package writes the second. The input names the literals' kind or type.
#[proc_macro]
pub fn written(input: TokenStream) -> TokenStream {
    let name = input.to_string();
    let pairs = written::written(&name).ok_or_else(|| {
        let message = format!("no literals of {name}");
        MacroError::new(message, Span::call_site())
    });
    or_error(pairs.map(|pairs| tokens_of(&pairs)))
}

/// Returns an array with a tuple for each setting of the input: its name, its value, and the source texts of the name, the minus
/// and the value. If the input is invalid, the result is the error's message, and the source text at its first and at its last
/// token.
#[proc_macro]
pub fn settings(input: TokenStream) -> TokenStream {
    let shown = |text: &str| write_str(text);
    let source = |span: Span| shown(&span.source_text().expect("a source"));
    let text = MacroInput::of(input);
    match text.settings() {
        Ok(settings) => {
            let entries = settings.entries().iter().map(|entry| {
                let (name, value) = (shown(entry.name), shown(entry.value.text()));
                let name_at = source(text.spans(entry.name_range.clone()).0);
                let (first, last) = text.spans(entry.value_range.clone());
                let minus_at = match entry.value.text().starts_with('-') {
                    true => source(first),
                    false => "\"\"".into(),
                };
                format!(
                    "({name}, {value}, {name_at}, {minus_at}, {}),",
                    source(last)
                )
            });
            tokens_of(&format!("[{}]", entries.collect::<String>()))
        }
        Err(error) => shown_error(&error),
    }
}

/// Returns an error's message, and the source text at its first and at its last token.
fn shown_error(error: &MacroError) -> TokenStream {
    let source = |span: Span| write_str(&span.source_text().expect("a source"));
    let trees: Vec<TokenTree> = error.to_compile_error().into_iter().collect();
    let (first, last) = (source(trees[0].span()), source(trees[7].span()));
    let message = write_str(&error.to_string());
    tokens_of(&format!("({message}, {first}, {last})"))
}

const NAME: Key = Key::new("name", "a string");
const SIZE: Key = Key::new("size", "an integer from 0 to 255");

fn named_size(input: TokenStream) -> Result<(String, u8), MacroError> {
    let text = MacroInput::of(input);
    let settings = text.settings()?;
    let error = |error| text.error(&error);
    settings.check(&[NAME, SIZE]).map_err(error)?;
    let name = settings.string(NAME).map_err(error)?;
    let name = name.ok_or_else(|| error(settings.missing_error(NAME)))?;
    let size = settings.number(SIZE).map_err(error)?;
    Ok((name.into_owned(), size.unwrap_or(1)))
}

/// Returns the values of the settings `name` and `size`, or the error in the form that `settings` returns.
#[proc_macro]
pub fn named(input: TokenStream) -> TokenStream {
    match named_size(input) {
        Ok((name, size)) => tokens_of(&format!("({}, {size}u8)", write_str(&name))),
        Err(error) => shown_error(&error),
    }
}

/// Returns the error message for settings with two adjacent slash tokens. A source can't have these tokens, because they would be a
/// comment, but a macro can create them.
#[proc_macro]
pub fn joined_slashes(_: TokenStream) -> TokenStream {
    let slash = |spacing| TokenTree::from(Punct::new('/', spacing));
    let slashes = [slash(Spacing::Joint), slash(Spacing::Alone)];
    let input = tokens_of("a = 1,").into_iter().chain(slashes);
    let input = input.chain(tokens_of("b = 2")).collect();
    let error = MacroInput::of(input).settings().unwrap_err();
    tokens_of(&write_str(&error.to_string()))
}

/// Returns a string literal with the names of the package's calls that take more time per setting for a long input than for a short
/// one.
#[proc_macro]
pub fn slow_calls(_: TokenStream) -> TokenStream {
    growth::slow_calls()
}

/// Returns a string literal with a line for each call of the package: its time per setting for a short input and for a long one.
#[proc_macro]
pub fn call_times(_: TokenStream) -> TokenStream {
    growth::call_times()
}

/// Returns an array with a triple for each literal of the input: its text, the source text at its span, and the source texts at the
/// spans of the tokens that it is converted to.
#[proc_macro]
pub fn placed(input: TokenStream) -> TokenStream {
    or_error(places::literals(input))
}

/// Returns the errors of the token trees that aren't byte literals, and all of them combined into one error. For each error the
/// result has its message, the source text at its span, and the number of combined errors.
#[proc_macro]
pub fn byte_errors(input: TokenStream) -> TokenStream {
    places::errors(&input)
}

/// Returns the errors of converting texts that Rust rejects to tokens, in the form of `byte_errors`. The tokens would have the span
/// of the input's first token.
#[proc_macro]
pub fn errors_of_tokens(input: TokenStream) -> TokenStream {
    places::errors_of_tokens(input)
}

/// Returns errors that are created from the spans of two token trees, in the form of `byte_errors`, and two messages printed with a
/// width.
#[proc_macro]
pub fn made_errors(input: TokenStream) -> TokenStream {
    places::made_errors(input)
}

/// Returns a slice with a tuple for each entry of an attribute: its name, the source text at its span, its form, its tokens, and
/// the source text of its literal. If the input is invalid, the result is the errors.
#[proc_macro]
pub fn entries(input: TokenStream) -> TokenStream {
    attributes::entries(input)
}

/// Returns a string literal with the text that `Debug` prints for the entries of an attribute.
#[proc_macro]
pub fn debugged(input: TokenStream) -> TokenStream {
    attributes::debugged(input)
}

/// Returns a tuple of the settings in the input of an attribute macro, read by name, or the errors.
#[proc_macro]
pub fn options(input: TokenStream) -> TokenStream {
    attributes::options(input)
}

/// Returns a tuple of the settings in the content of `#[..]`, read by name, or the errors.
#[proc_macro]
pub fn attribute(input: TokenStream) -> TokenStream {
    attributes::attribute(input)
}

/// Returns a tuple of the settings in the attributes `#[opt(..)]` before an item, read by name, the names of all attributes, and the
/// tokens after them, or the errors.
#[proc_macro]
pub fn joined(input: TokenStream) -> TokenStream {
    attributes::joined(input)
}

/// Implements `description()` for a struct, from its attributes `#[described(..)]`.
#[proc_macro_derive(Described, attributes(described))]
pub fn derive_described(item: TokenStream) -> TokenStream {
    attributes::derive(item)
}

/// Returns the error that `?` makes of an integer out of its type's range, and a copy of it that was moved to the input's last
/// token.
#[proc_macro]
pub fn converted(input: TokenStream) -> TokenStream {
    attributes::converted(input)
}

/// Returns an error at the value of each entry, in the form of the errors of `entries`.
#[proc_macro]
pub fn at_values(input: TokenStream) -> TokenStream {
    attributes::at_values(input)
}

/// Returns the settings in the input of an attribute macro, read by name, as the source text of a tuple.
#[proc_macro]
pub fn checked(input: TokenStream) -> TokenStream {
    or_error(attributes::checked(input))
}

/// Returns the number of entries in the attributes `#[opt(..)]` before an item.
#[proc_macro]
pub fn counted(item: TokenStream) -> TokenStream {
    or_error(attributes::counted(item))
}

/// Returns the values of the settings `name` and `size`.
#[proc_macro]
pub fn checked_settings(input: TokenStream) -> TokenStream {
    or_error(
        named_size(input)
            .map(|(name, size)| tokens_of(&format!("({}, {size}u8)", write_str(&name)))),
    )
}

/// Returns the string that is the whole input and has no brace, as it was read. A brace is an error inside of the string, whose form is
/// that of `strings_errors`.
#[proc_macro]
pub fn without_brace(input: TokenStream) -> TokenStream {
    match places::without_brace(input) {
        Ok(tokens) => tokens,
        Err(error) => shown_errors(error),
    }
}

/// Returns an array with a triple for each integer in the input's list: its text, and the source texts at the tokens that it is
/// converted to. An integer above 9 is an error with its minus. The form of errors is that of `strings_errors`.
#[proc_macro]
pub fn digits(input: TokenStream) -> TokenStream {
    match attributes::digits(input) {
        Ok(tokens) => tokens,
        Err(error) => shown_errors(error),
    }
}

/// Returns the array of `digits`.
#[proc_macro]
pub fn checked_digits(input: TokenStream) -> TokenStream {
    or_error(attributes::digits(input))
}

/// Returns the string of `without_brace`.
#[proc_macro]
pub fn checked_text(input: TokenStream) -> TokenStream {
    or_error(places::without_brace(input))
}

/// Returns the list of `identifiers::sequences`.
#[proc_macro]
pub fn identifier_sequences(_: TokenStream) -> TokenStream {
    tokens_of(&identifiers::sequences())
}

/// Returns the list of `kept::changed`.
#[proc_macro]
pub fn changed(_: TokenStream) -> TokenStream {
    tokens_of(&format!("[{}]", kept::changed()))
}
