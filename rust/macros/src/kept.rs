//! Tests of the state that errors, attributes and macro input keep. A part of this state is visible only inside of a procedural macro.

use navyspindle::{Attrs, Lit, MacroError, Meta};
use proc_macro::{Spacing, Span, TokenStream, TokenTree};
use std::fs;

/// Returns an error of two combined errors.
fn combined() -> MacroError {
    let mut error = MacroError::new("one", Span::call_site());
    error.combine(MacroError::new("two", Span::call_site()));
    error
}

/// Returns the messages of the combined errors.
fn messages(error: MacroError) -> Vec<String> {
    error.into_iter().map(|error| error.to_string()).collect()
}

/// Whether the minus of a number is a token by itself: the tokens are also those of `- 1`.
fn is_minus_alone() -> bool {
    let tokens = Lit::of_text("-1").to_token_stream(Span::call_site());
    let first = tokens.ok().and_then(|tokens| tokens.into_iter().next());
    matches!(first, Some(TokenTree::Punct(minus)) if minus.spacing() == Spacing::Alone)
}

fn tokens(text: &str) -> TokenStream {
    text.parse().expect("tokens")
}

/// Whether the name is an error because two entries have it.
fn is_repeated(text: &str, name: &str) -> bool {
    let attrs = Attrs::parse(tokens(text)).expect("entries");
    attrs
        .get(name)
        .is_err_and(|error| error.to_string() == format!("repeated name `{name}`"))
}

/// Returns the number of pages of memory that this process uses, or 0 if the system doesn't report it as Linux does.
fn pages() -> usize {
    let told = fs::read_to_string("/proc/self/statm").ok();
    told.and_then(|told| told.split(' ').nth(1)?.parse().ok())
        .unwrap_or(0)
}

/// Whether a million errors that are dropped take less than 4 MB of memory, in pages of 4 KB. Their spans have 8 MB.
fn are_errors_freed() -> bool {
    let before = pages();
    (0..1_000_000).for_each(|_| drop(MacroError::new("no", Span::call_site())));
    pages() < before + 1_000
}

/// Returns the source of a list of strings: the facts that don't hold.
pub fn changed() -> String {
    let facts = [
        (
            "an error that is moved keeps the combined ones",
            messages(combined().at(Span::call_site())) == ["one", "two"],
        ),
        (
            "a clone of an error keeps the combined ones",
            messages(combined().clone()) == ["one", "two"],
        ),
        ("the minus of a number is alone", is_minus_alone()),
        (
            "a repeated name is an error",
            is_repeated("a = 1, a = 2", "a"),
        ),
        (
            "a repeated path is an error",
            is_repeated("a::b = 1, a::b = 2", "a::b"),
        ),
        (
            "`;` doesn't separate entries",
            Meta::parse_all(tokens("a = 1; b = 2")).is_err(),
        ),
        ("dropped errors free their memory", are_errors_freed()),
    ];
    facts
        .iter()
        .filter(|fact| !fact.1)
        .map(|fact| format!("{:?}, ", fact.0))
        .collect()
}
