//! Lists of literals, and attributes: `name = literal`, with commas between them. A literal at the start of token trees is found as
//! by syn's parser of literals.

use crate::trees::{Cut, Rejection, is_truth, line};
use proc_macro::TokenTree;
use std::collections::HashSet;

/// A literal at the start of token trees: its text, its position, and the number of trees that it consists of.
struct Front {
    text: String,
    lo: usize,
    hi: usize,
    trees: usize,
}

/// Returns the literal that the trees begin with, or an error.
fn front(cut: &Cut<'_>, trees: &[TokenTree]) -> Result<Front, Rejection> {
    let found = match trees {
        [TokenTree::Literal(literal), ..] => Some((literal.to_string(), 1)),
        [TokenTree::Ident(word), ..] if is_truth(&word.to_string()) => Some((word.to_string(), 1)),
        [TokenTree::Punct(sign), TokenTree::Literal(number), ..] if sign.as_char() == '-' => {
            let text = format!("-{number}");
            line(&text).starts_with(['I', 'F']).then_some((text, 2))
        }
        _ => None,
    };
    let (text, count) = found.ok_or_else(|| expected(cut, trees, "literal"))?;
    let (lo, _) = cut.place(trees[0].span());
    let (_, hi) = cut.place(trees[count - 1].span());
    Ok(Front { text, lo, hi, trees: count })
}

/// Returns the error that another token than the one that `word` names is next.
fn expected(cut: &Cut<'_>, trees: &[TokenTree], word: &str) -> Rejection {
    let end = cut.text.len();
    let (lo, hi) = trees.first().map_or((end, end), |tree| cut.place(tree.span()));
    let front = if trees.is_empty() { "unexpected end of input, " } else { "" };
    Rejection::At(lo, hi, format!("{front}expected {word}"))
}

/// Returns the trees after this punctuation character.
fn after<'t>(cut: &Cut<'_>, trees: &'t [TokenTree], mark: char) -> Result<&'t [TokenTree], Rejection> {
    match trees {
        [TokenTree::Punct(found), rest @ ..] if found.as_char() == mark => Ok(rest),
        _ => Err(expected(cut, trees, &format!("`{mark}`"))),
    }
}

/// Returns a text as a string literal, by the table of docs/GRAMMAR.md.
fn written(text: &str) -> String {
    let escaped = text.chars().map(|c| match c {
        '\0' => "\\0".to_string(),
        '\t' | '\n' | '\r' | '"' | '\\' => c.escape_default().to_string(),
        '\u{1}'..='\u{1f}' | '\u{7f}' => format!("\\x{:02X}", u32::from(c)),
        c => c.to_string(),
    });
    format!("\"{}\"", escaped.collect::<String>())
}

/// Returns a line for each of the text's literals: its kind, its byte range and its text.
pub fn spans(cut: &Cut<'_>) -> Result<String, Rejection> {
    let trees = cut.checked()?;
    let (mut rest, mut out) = (&trees[..], String::new());
    while !rest.is_empty() {
        let Front { text, lo, hi, trees } = front(cut, rest)?;
        let line = line(&text);
        let kind = line.split(' ').next().unwrap_or_default();
        out.push_str(&format!("{kind} {lo}..{hi} {}\n", written(&text)));
        rest = &rest[trees..];
    }
    Ok(out)
}

/// Returns a line for each of the text's attributes: its name, and the line of its literal.
pub fn attributes(cut: &Cut<'_>) -> Result<String, Rejection> {
    let trees = cut.checked()?;
    let (mut rest, mut names, mut out) = (&trees[..], HashSet::new(), String::new());
    while !rest.is_empty() {
        let [TokenTree::Ident(name), following @ ..] = rest else {
            return Err(expected(cut, rest, "identifier"));
        };
        if !names.insert(name.to_string()) {
            let (lo, hi) = cut.place(name.span());
            return Err(Rejection::At(lo, hi, "repeated name".to_string()));
        }
        rest = after(cut, following, '=')?;
        let value = front(cut, rest)?;
        out.push_str(&format!("{name} {}\n", line(&value.text)));
        rest = &rest[value.trees..];
        if !rest.is_empty() {
            rest = after(cut, rest, ',')?;
        }
    }
    Ok(out)
}
