//! `cut!()` writes the tokens of texts (`texts.rs`) by rustc's own lexer. A line has the tokens of a text as words, or is `unread`.
//! A word begins with a letter for the token's form, and a literal follows in hexadecimal. Before each text the macro prints `@` and
//! the text's number to standard error. rustc's messages after it are about this text.

// This library is also built with the edition 2015, which needs this line.
extern crate proc_macro;

#[path = "../texts.rs"]
mod texts;

use proc_macro::{TokenStream, TokenTree};
use std::panic::{catch_unwind, set_hook};

/// Appends the words of the tokens to `out`. A group is represented by its opening and its closing token.
fn push_words(stream: TokenStream, out: &mut String) {
    for tree in stream {
        let word = match tree {
            TokenTree::Group(group) => {
                let delimiter = group.delimiter();
                out.push_str(&format!("O{delimiter:?} "));
                push_words(group.stream(), out);
                format!("C{delimiter:?} ")
            }
            TokenTree::Ident(ident) => format!("I{ident} "),
            TokenTree::Punct(punct) => format!("P{}{:?} ", punct.as_char(), punct.spacing()),
            TokenTree::Literal(literal) => format!("L{} ", texts::hex(&literal.to_string())),
        };
        out.push_str(&word);
    }
}

#[proc_macro]
pub fn cut(_: TokenStream) -> TokenStream {
    set_hook(Box::new(|_| {}));
    texts::write(texts::given().enumerate().map(|(at, text)| {
        eprintln!("@{at}");
        let words = catch_unwind(|| {
            let mut words = String::new();
            push_words(text.parse().ok()?, &mut words);
            Some(words)
        });
        format!("{}\n", words.unwrap_or(None).unwrap_or("unread".to_owned()).trim_end())
    }))
}
