//! Macros that write the results of rustc's own lexer for texts to a file (`texts.rs`), while rustc expands them.
//!
//! syn's own parsing code parses each literal. The code that goes through the token trees is written here.
#![feature(proc_macro_span)]

mod lists;
#[path = "../../texts.rs"]
mod texts;
mod trees;

use crate::trees::{Cut, Rejection, is_token, lexes};
use proc_macro::{TokenStream, TokenTree};
use std::panic::{self, catch_unwind};
use std::sync::LazyLock;

/// `judged!(strict)` writes for each text whether it is one literal token without an error, including `true` and `false`.
/// `judged!(lexes)` writes whether a text can be divided into token trees without an error. A result is a line `true` or `false`.
#[proc_macro]
pub fn judged(command: TokenStream) -> TokenStream {
    let judge: fn(&str) -> bool = if command.to_string() == "strict" { is_token } else { lexes };
    panic::set_hook(Box::new(|_| {}));
    // An error that stops rustc's lexer at once, such as a quote that isn't closed, is a panic here.
    texts::write(texts::given().map(|text| format!("{}\n", catch_unwind(|| judge(text)).unwrap_or(false))))
}

/// `tried!(N)` lexes the text with this number, so that rustc reports the text's errors at the line of the call. If the text can't
/// be lexed, an error is always reported there.
#[proc_macro]
pub fn tried(number: TokenStream) -> TokenStream {
    static TEXTS: LazyLock<Vec<&str>> = LazyLock::new(|| texts::given().collect());
    let number: usize = number.to_string().parse().expect("a number");
    panic::set_hook(Box::new(|_| {}));
    if catch_unwind(|| lexes(TEXTS[number])).unwrap_or(false) {
        return TokenStream::new();
    }
    // This error follows rustc's own errors, if there are any. rustc reports none for groups that aren't closed.
    "compile_error! { \"groups do not match\" }".parse().expect("a call")
}

/// `lines!(COMMAND {text} {text} ..)` gets the same texts as the file. It writes the lines of each text's literals (`spans`: kind,
/// byte range and text; `sources`: also those inside groups) or attributes (`attr`), and a line with a full stop after each text.
#[proc_macro]
pub fn lines(tokens: TokenStream) -> TokenStream {
    let mut groups = tokens.into_iter();
    let lines = match groups.next().expect("a command").to_string().as_str() {
        "spans" => lists::spans,
        "attr" => lists::attributes,
        _ => trees::all_literals,
    };
    texts::write(texts::given().zip(groups).map(|(text, tree)| {
        let TokenTree::Group(group) = tree else { panic!("a text outside braces") };
        match lines(&Cut::of(text, group)) {
            Ok(lines) => format!("{lines}.\n"),
            Err(Rejection::Unlexed) => "unlexed\n.\n".to_string(),
            Err(Rejection::At(lo, hi, message)) => format!("error at {lo}..{hi}: {message}\n.\n"),
        }
    }))
}
