//! Functions that show values, spans and errors as the rows contain them.

use navyspindle_programs::rattle_std::alloc::Global;
use navyspindle_programs::rl_program::output_line;
use navyspindle_programs::rl_tokens::{lex, Error, Literal, Span, TokenStream, TokenTree};
use navyspindle_programs::rust_literals::Lit;
use std::collections::hash_map::DefaultHasher;
use std::fmt::Debug;
use std::hash::{Hash, Hasher};

/// A span that callers pass, and that no call creates by itself.
pub const HERE: Span = Span {
    file: 7,
    lo: 3,
    hi: 9,
};

/// A second span that no call creates by itself.
pub const THERE: Span = Span {
    file: 3,
    lo: 1,
    hi: 2,
};

/// Shows a span's file and byte range.
pub fn at(span: Span) -> String {
    format!("{}:{}", span.file, range(span))
}

/// Shows a span's byte range.
pub fn range(span: Span) -> String {
    format!("{}..{}", span.lo, span.hi)
}

/// Shows an error's span, kind and message.
pub fn error(error: &Error) -> String {
    format!("{} {:?}: {error}\n", at(error.span), error.kind)
}

/// Shows a value by `shown`, or the error.
pub fn value_or_error<T>(answer: Result<T, Error>, shown: impl FnOnce(&T) -> String) -> String {
    match answer {
        Ok(value) => shown(&value),
        Err(it) => error(&it),
    }
}

/// Shows a value by its `Debug`, or the error.
pub fn debug_or_error<T: Debug>(answer: Result<T, Error>) -> String {
    value_or_error(answer, |value| format!("{value:?}\n"))
}

/// Shows a literal's line, as `rl_tool` prints it.
pub fn line(literal: &Lit) -> String {
    output_line(Global, literal).unwrap().as_str().to_owned()
}

/// Shows a literal's `Debug` and span.
pub fn spanned(literal: &Lit) -> String {
    format!("{literal:?} {}", at(literal.span()))
}

/// Shows a literal's `Debug`, span and line.
pub fn whole(literal: &Lit) -> String {
    format!("{} {}", spanned(literal), line(literal))
}

/// Shows a value as a `Lit`, or the error.
pub fn literal_or_error<T: Into<Lit>>(answer: Result<T, Error>) -> String {
    match answer {
        Ok(value) => whole(&value.into()),
        Err(it) => error(&it),
    }
}

/// Shows a token and its span, or the error.
pub fn token_or_error(answer: Result<Literal, Error>) -> String {
    value_or_error(answer, |token| format!("{token} {}\n", at(token.span())))
}

/// Parses the text as a literal with the given span.
pub fn literal_of(text: &str, span: Span) -> Result<Lit, Error> {
    Ok(Lit::new(Global, Literal::from_text(Global, text, span)?)?)
}

/// Returns the token trees of a text, or `None` if the lexer rejects it.
pub fn trees_of(text: &str, file: u32) -> Option<TokenStream> {
    lex(Global, text, file).ok()
}

/// Shows a token tree's form and text.
pub fn form(tree: &TokenTree) -> String {
    match tree {
        TokenTree::Group(group) => format!("{:?}", group.delimiter()),
        TokenTree::Ident(ident) => format!("Ident {}", ident.text()),
        TokenTree::Punct(punct) => format!("Punct {}", punct.as_char()),
        TokenTree::Literal(literal) => format!("Literal {}", literal.text()),
    }
}

/// Shows token trees, each with its span.
pub fn trees(trees: &[TokenTree]) -> String {
    let trees = trees
        .iter()
        .map(|tree| format!("{} {}; ", form(tree), at(tree.span())));
    trees.collect::<String>() + "\n"
}

/// Returns the hash of a value.
pub fn hash_of<T: Hash>(value: &T) -> u64 {
    let mut state = DefaultHasher::new();
    value.hash(&mut state);
    state.finish()
}
