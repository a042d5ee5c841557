//! The entries of attributes, also among a macro's tokens, and of their lists at any depth. `syn` 1's own `Meta` accepts only
//! literals as values. So an entry is parsed here as `syn` 2 and 3 do: `Path::parse_mod_style`, then brackets, or `=` and an `Expr`; and the
//! entries of a list by `Punctuated::parse_terminated`. Names are compared without `r#`. If a value is a literal, the package must
//! return it, and for any other value none.

use crate::line;
use navyspindle::{MacroError, Meta};
use proc_macro::{Delimiter, TokenStream, TokenTree};
use quote::ToTokens;
use syn::parse::{Parse, ParseStream, Parser};
use syn::punctuated::Punctuated;
use syn::{token, Expr, Ident, Lit, Path, Token, UnOp};

/// An entry as `syn` parses it.
enum Entry {
    Flag(Path),
    Value(Path, Box<Expr>),
    List(Path, TokenStream),
}

impl Parse for Entry {
    fn parse(input: ParseStream) -> syn::Result<Entry> {
        let path = input.call(Path::parse_mod_style)?;
        if input.peek(token::Paren) || input.peek(token::Bracket) || input.peek(token::Brace) {
            return Ok(Entry::List(path, input.parse::<proc_macro2::Group>()?.stream().into()));
        }
        if !input.peek(Token![=]) {
            return Ok(Entry::Flag(path));
        }
        input.parse::<Token![=]>()?;
        Ok(Entry::Value(path, input.parse()?))
    }
}

fn name_of(path: &Path) -> String {
    let words: Vec<_> = path.segments.iter().map(|it| it.ident.to_string().trim_start_matches("r#").to_string()).collect();
    let front = if path.leading_colon.is_some() { "::" } else { "" };
    format!("{front}{}", words.join("::"))
}

/// Whether the package reads the value as one literal: a literal, perhaps after a minus before a number.
fn is_literal(expr: &Expr) -> bool {
    match expr {
        Expr::Lit(it) => it.attrs.is_empty(),
        Expr::Unary(it) if matches!(it.op, UnOp::Neg(_)) && it.attrs.is_empty() => {
            matches!(&*it.expr, Expr::Lit(it) if matches!(it.lit, Lit::Int(_) | Lit::Float(_)) && it.attrs.is_empty())
        }
        Expr::Group(it) => is_literal(&it.expr),
        _ => false,
    }
}

/// Returns the text of each token, with marks for the start and the end of groups.
fn texts_of(tokens: TokenStream) -> Vec<String> {
    let text_of = |tree| match tree {
        TokenTree::Group(group) => {
            let mut texts = vec![format!("{:?}", group.delimiter())];
            texts.append(&mut texts_of(group.stream()));
            texts.push("end".to_string());
            texts
        }
        tree => vec![tree.to_string()],
    };
    tokens.into_iter().flat_map(text_of).collect()
}

fn theirs(entry: &Entry) -> String {
    match entry {
        Entry::Flag(path) => format!("{} flag", name_of(path)),
        Entry::Value(path, expr) => {
            let texts = texts_of(expr.to_token_stream().into());
            format!("{} = {texts:?}, literal {:?}", name_of(path), is_literal(expr).then(|| texts.concat()))
        }
        Entry::List(path, inside) => format!("{} list {:?}", name_of(path), texts_of(inside.clone())),
    }
}

fn ours(meta: &Meta) -> String {
    let name = meta.name();
    match (meta.value(), meta.tokens()) {
        (Err(_), Err(_)) if meta.flag().map_or(false, |it| it) => format!("{name} flag"),
        (Ok(value), Err(_)) => {
            let literal = meta.literal().map(|(it, _)| it.text().to_string());
            format!("{name} = {:?}, literal {literal:?}", texts_of(value))
        }
        (Err(_), Ok(list)) => format!("{name} list {:?}", texts_of(list)),
        _ => format!("{name} of no form"),
    }
}

/// Returns the reason why `syn` rejects an entry and the package doesn't: the value isn't an expression, which the package doesn't
/// examine; or a keyword is the name, or a part of its path.
fn known(meta: &Meta) -> Option<&'static str> {
    let is_keyword = |word: &str| syn::parse_str::<Ident>(word).is_err() && !["crate", "self", "super", "Self"].contains(&word);
    if meta.value().map_or(false, |value| syn::parse::<Expr>(value).is_err()) {
        Some("values that syn rejects")
    } else if meta.name().split("::").any(|word| !word.is_empty() && is_keyword(word)) {
        Some("names that are keywords")
    } else {
        None
    }
}

/// Returns the line of entries that the package and `syn` parse, and the lines of the lists in them.
fn compared(name: &str, tokens: TokenStream, metas: Result<Vec<Meta>, MacroError>, entries: syn::Result<Vec<Entry>>) -> String {
    let shown = |texts: Result<Vec<String>, ()>| texts.map_or("rejected".to_string(), |it| it.join("; "));
    let told = shown(entries.as_ref().map(|it| it.iter().map(theirs).collect()).map_err(|_| ()));
    let mine = shown(metas.as_ref().map(|it| it.iter().map(ours).collect()).map_err(|_| ()));
    let metas = metas.unwrap_or_default();
    let known = if entries.is_err() { metas.iter().find_map(known) } else { None };
    let lists = metas.iter().filter_map(|it| it.tokens().ok()).map(|list| {
        let entries = Punctuated::<Entry, Token![,]>::parse_terminated.parse(list.clone());
        compared("lists", list.clone(), Meta::parse_all(list), entries.map(|it| it.into_iter().collect()))
    });
    line(name, &tokens.to_string(), &told, &mine, known.unwrap_or_default()) + &lists.collect::<String>()
}

/// Returns the lines of each attribute among these tokens.
pub fn of_attributes(tokens: TokenStream) -> String {
    let (mut lines, mut after_hash) = (String::new(), false);
    for tree in tokens {
        let is_mark = |mark| matches!(&tree, TokenTree::Punct(it) if it.as_char() == mark);
        let (hash, bang) = (is_mark('#'), is_mark('!'));
        if let TokenTree::Group(group) = tree {
            let inside = group.stream();
            if after_hash && group.delimiter() == Delimiter::Bracket {
                let entry = syn::parse::<Entry>(inside.clone()).map(|it| vec![it]);
                lines += &compared("attributes", inside.clone(), Meta::parse(inside.clone()).map(|it| vec![it]), entry);
            }
            lines += &of_attributes(inside);
        }
        after_hash = hash || after_hash && bang;
    }
    lines
}
