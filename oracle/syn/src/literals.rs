//! Which literals of a file are inside of a macro call. By `syn`, a literal is inside if it is among the tokens of a macro or of an
//! attribute, except doc comments.

use crate::line;
use navyspindle::rendered::rl_style::Restylables;
use proc_macro2::{Span, TokenStream, TokenTree};
use std::collections::BTreeMap;
use std::iter::from_fn;
use syn::visit::Visit;

/// The literals of a file, each with whether it is inside of a macro call.
#[derive(Default)]
struct Literals(Vec<(Span, bool)>);

impl Literals {
    fn all_of(&mut self, tokens: TokenStream) {
        for token in tokens {
            match token {
                TokenTree::Group(group) => self.all_of(group.stream()),
                TokenTree::Literal(literal) => self.0.push((literal.span(), true)),
                TokenTree::Ident(word) if word == "true" || word == "false" => self.0.push((word.span(), true)),
                _ => {}
            }
        }
    }
}

impl<'a> Visit<'a> for Literals {
    fn visit_macro(&mut self, it: &'a syn::Macro) {
        self.all_of(it.tokens.clone());
    }

    fn visit_attribute(&mut self, it: &'a syn::Attribute) {
        self.all_of(it.tokens.clone());
    }

    fn visit_lit(&mut self, it: &'a syn::Lit) {
        self.0.push((it.span(), false));
    }
}

/// Returns a line for each literal of a file. A file that `syn` rejects, or that contains a CR or a byte order mark, has no lines.
pub fn of_file(text: &str) -> String {
    let file = match syn::parse_file(text) {
        Ok(file) if !text.contains('\r') && !text.starts_with('\u{feff}') => file,
        _ => return String::new(),
    };
    let mut cursor = Restylables::new(text);
    let found: BTreeMap<_, _> = from_fn(|| cursor.next().map(|it| (it.token.lo, it.in_macro))).collect();
    let mut literals = Literals::default();
    literals.visit_file(&file);
    let begins: Vec<_> = std::iter::once(0).chain(text.match_indices('\n').map(|(at, _)| at + 1)).collect();
    let lines = literals.0.into_iter().map(|(span, inside)| {
        let line_text = &text[begins[span.start().line - 1]..];
        let rest = &line_text[line_text.chars().take(span.start().column).map(char::len_utf8).sum()..];
        if rest.starts_with("//") || rest.starts_with("/*") {
            return String::new();
        }
        let digits = rest.strip_prefix('-').map_or(rest, str::trim_start);
        let ours = found.get(&(text.len() - digits.len()));
        line("literals", rest, &format!("{:?}", Some(&inside)), &format!("{ours:?}"), "")
    });
    lines.collect()
}
