//! Macros that return the spans of literals and errors, as source texts.

use crate::{take_comma, tokens_of};
use navyspindle::{next_literal, write_str, Kind, Lit, LitByte, LitStr, Located, MacroError};
use proc_macro::{Span, TokenStream};

/// Returns the source text at a span, as a string literal.
fn source(span: Span) -> String {
    write_str(&span.source_text().expect("a source"))
}

/// Returns an array with a triple for each literal of the input: its text, the source text at its span, and the source texts at the
/// spans of the tokens that it is converted to.
pub fn literals(input: TokenStream) -> Result<TokenStream, MacroError> {
    let (mut tokens, mut shown) = (input.into_iter().peekable(), String::new());
    while tokens.peek().is_some() {
        let (literal, span) = next_literal(&mut tokens)?;
        take_comma(&mut tokens)?;
        let trees = literal.to_token_stream(span)?.into_iter();
        let trees: String = trees.map(|tree| source(tree.span()) + ",").collect();
        let text = write_str(literal.text());
        shown += &format!("({text}, {}, &[{trees}] as &[&str]),", source(span));
    }
    Ok(tokens_of(&format!("[{shown}]")))
}

/// Returns an error for each token tree that isn't a byte literal.
fn errors_of_bytes(input: &TokenStream) -> Vec<MacroError> {
    let trees = input.clone().into_iter();
    trees
        .filter_map(|tree| LitByte::try_from(&tree).err())
        .collect()
}

/// Returns an error's message, the source text at its span, and the number of errors that are combined in it.
fn shown(error: &MacroError) -> String {
    let count = error.clone().into_iter().count();
    let message = write_str(&error.to_string());
    format!("({message}, {}, {count}),", source(error.span()))
}

/// Returns the errors of the token trees that aren't byte literals, and then all of them combined into one error, beginning with
/// the last.
pub fn errors(input: &TokenStream) -> TokenStream {
    let errors = errors_of_bytes(input);
    let each: String = errors.iter().map(shown).collect();
    let all = errors.into_iter().rev().reduce(|rest, mut error| {
        error.combine(rest);
        error
    });
    tokens_of(&format!("[{each}{}]", shown(&all.expect("an error"))))
}

/// Returns the errors of converting texts that Rust rejects to tokens, with the span of the input's first token.
pub fn errors_of_tokens(input: TokenStream) -> TokenStream {
    let span = input.into_iter().next().expect("a token").span();
    let error_of = |text: &str| Lit::of_text(text).to_token_stream(span).expect_err(text);
    let errors = ["word", "0b2", "\"\\q\"", "--1"].map(error_of);
    let errors: String = errors.iter().map(shown).collect();
    tokens_of(&format!("[{errors}]"))
}

/// Returns errors that a macro creates from the spans of two token trees.
pub fn made_errors(input: TokenStream) -> TokenStream {
    let spans: Vec<Span> = input.into_iter().map(|tree| tree.span()).collect();
    let mut two = MacroError::new("four", spans[0]);
    two.combine(MacroError::new("five", spans[0]));
    let made = [
        MacroError::new("one", spans[1]),
        MacroError::between(format_args!("{}{}", 't', "wo"), spans[0], spans[1]),
        MacroError::expected(Kind::CStr, Kind::Float, spans[1]),
        MacroError::new("three", spans[0]).at(spans[1]),
        two.at(spans[1]),
    ];
    let padded = format!("[{:>4}] [{:<4}] [{:.1}]", made[0], made[0], made[1]);
    let made: String = made.iter().map(shown).collect();
    tokens_of(&format!("([{made}], {})", write_str(&padded)))
}

/// Returns the string that is the whole input and has no brace, as it was read.
pub fn without_brace(input: TokenStream) -> Result<TokenStream, MacroError> {
    let text = Located::<LitStr>::only(input)?;
    match text.value().find('{') {
        Some(at) => Err(text.error_inside(at..at + 1, "unexpected brace")),
        None => text.to_token_stream(),
    }
}
