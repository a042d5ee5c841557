//! `reader --len --read` reads texts from standard input, each after its length (four bytes, the lowest first). For each text it
//! prints the lines of its literals, or `rejected` or `unlexed`, and then a line with a full stop.
//!
//! proc_macro2's own lexer divides the text into tokens, and syn's own parsing code parses each literal. The code that goes through
//! the token trees follows syn's parser of literals.

#[path = "../../../texts.rs"]
mod texts;

use proc_macro2::token_stream::IntoIter;
use proc_macro2::{TokenStream, TokenTree};

/// Returns the line of the literal that begins with this tree, or `None` if it doesn't begin a literal.
fn literal_line(tree: TokenTree, after: &mut IntoIter) -> Option<String> {
    let line = |text: &str| String::from_utf8(synval::line(text)).expect("a line");
    match tree {
        TokenTree::Literal(literal) => Some(line(&literal.to_string())),
        TokenTree::Ident(word) if word == "true" || word == "false" => Some(line(&word.to_string())),
        TokenTree::Punct(sign) if sign.as_char() == '-' => {
            let Some(TokenTree::Literal(number)) = after.next() else { return None };
            Some(line(&format!("-{number}"))).filter(|it| it.starts_with(['I', 'F']))
        }
        _ => None,
    }
}

/// Returns the lines of the text's literals, or the word for its rejection.
fn lines(text: &str) -> Result<String, &'static str> {
    let stream: TokenStream = text.parse().map_err(|_| "unlexed\n")?;
    let mut trees = stream.into_iter();
    let mut out = String::new();
    while let Some(tree) = trees.next() {
        out += &literal_line(tree, &mut trees).ok_or("rejected\n")?;
    }
    Ok(out)
}

fn main() -> std::io::Result<()> {
    texts::print(|text| {
        let lines = lines(text).unwrap_or_else(str::to_owned);
        format!("{lines}.\n")
    })
}
