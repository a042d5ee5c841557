//! Token trees as rustc's lexer returns them, and the literals in them.

use proc_macro::{Group, Literal, Spacing, Span, TokenStream, TokenTree};

/// The reason why a text has no lines.
pub enum Rejection {
    /// The lexer reported an error, whose only trace here is a changed text.
    Unlexed,
    /// An error with its byte range, as start and end, and its message.
    At(usize, usize, String),
}

/// Whether the lexer reported an error in the literal: in an escape, or in its digits.
fn is_faulty(literal: &Literal) -> bool {
    format!("{literal:?}").starts_with("Literal { kind: Err")
}

/// Whether the literal is the whole text, without an error. If its suffix is invalid, the literal lacks the suffix.
fn is_whole(literal: &Literal, text: &str) -> bool {
    !is_faulty(literal) && literal.to_string() == text
}

/// Whether the text is one literal token without an error, or `true` or `false`.
pub fn is_token(text: &str) -> bool {
    let literal: Result<Literal, _> = text.parse();
    is_truth(text) || !text.starts_with('-') && literal.is_ok_and(|literal| is_whole(&literal, text))
}

pub fn is_truth(word: &str) -> bool {
    word == "true" || word == "false"
}

/// Whether the lexer reported no error in any literal of the trees.
fn are_sound(trees: TokenStream) -> bool {
    trees.into_iter().all(|tree| match tree {
        TokenTree::Literal(literal) => !is_faulty(&literal),
        TokenTree::Group(group) => are_sound(group.stream()),
        _ => true,
    })
}

/// Whether the text can be divided into token trees, and the lexer reports no error in a literal.
pub fn lexes(text: &str) -> bool {
    text.parse().is_ok_and(are_sound)
}

/// Returns the line that the program `synval` prints for a text, without its LF.
pub fn line(text: &str) -> String {
    let line = String::from_utf8(synval::line(text)).expect("a line");
    line.trim_end_matches('\n').to_string()
}

/// A text between braces that was lexed, with the changes that rustc makes before it lexes.
pub struct Cut<'a> {
    /// The text as in the file.
    pub text: &'a str,
    pub trees: TokenStream,
    /// The text as rustc lexes it: with LF for CR LF.
    lexed: String,
    /// The offsets in `lexed` before which a CR was dropped.
    drops: Vec<usize>,
    /// The byte offset after the opening brace.
    base: usize,
}

impl<'a> Cut<'a> {
    pub fn of(text: &'a str, group: Group) -> Cut<'a> {
        let returns = text.match_indices("\r\n").enumerate();
        let drops = returns.map(|(count, (at, _))| at - count).collect();
        let (lexed, base) = (text.replace("\r\n", "\n"), group.span_open().byte_range().end);
        Cut { text, trees: group.stream(), lexed, drops, base }
    }

    /// Returns the byte range of a span in the file's text.
    pub fn place(&self, span: Span) -> (usize, usize) {
        let in_file = |at| at + self.drops.partition_point(|drop| *drop < at);
        let range = span.byte_range();
        (in_file(range.start - self.base), in_file(range.end - self.base))
    }

    /// Rejects a literal that differs from the text at its span, because the lexer reported an error. Returns whether the literal
    /// comes from a doc comment.
    fn is_of_comment(&self, literal: &Literal) -> Result<bool, Rejection> {
        let range = literal.span().byte_range();
        let found = &self.lexed[range.start - self.base..range.end - self.base];
        match found.starts_with('/') {
            false if !is_whole(literal, found) => Err(Rejection::Unlexed),
            is_of_comment => Ok(is_of_comment),
        }
    }

    /// Checks the literals of these trees, also inside groups. Sets `named` to the first error that our lexer reports by its name.
    fn check_trees(&self, trees: TokenStream, named: &mut Option<Rejection>) -> Result<(), Rejection> {
        for tree in trees {
            *named = named.take().or_else(|| self.rejected_by_name(&tree));
            match tree {
                TokenTree::Literal(literal) => {
                    self.is_of_comment(&literal)?;
                }
                TokenTree::Group(group) => self.check_trees(group.stream(), named)?,
                _ => (),
            }
        }
        Ok(())
    }

    /// Returns the trees of a text without CRs, or the error of the lexer.
    pub fn checked(&self) -> Result<Vec<TokenTree>, Rejection> {
        let mut named = None;
        self.check_trees(self.trees.clone(), &mut named)?;
        named.map_or_else(|| Ok(self.trees.clone().into_iter().collect()), Err)
    }

    /// Returns our lexer's error for a doc comment, a lifetime or a raw identifier, with its range.
    fn rejected_by_name(&self, tree: &TokenTree) -> Option<Rejection> {
        let (lo, hi) = self.place(tree.span());
        let word = match tree {
            TokenTree::Punct(mark) if mark.as_char() == '#' && hi - lo > 1 => "doc comment",
            TokenTree::Punct(mark) if mark.as_char() == '\'' && mark.spacing() == Spacing::Joint => "lifetime",
            TokenTree::Ident(name) if name.to_string().starts_with("r#") => "raw identifier",
            _ => return None,
        };
        Some(Rejection::At(lo, lo, format!("{word} is not carried")))
    }

    /// Adds the lines of the literals in the trees, also inside groups.
    fn add(&self, trees: TokenStream, out: &mut String) -> Result<(), Rejection> {
        let mut in_lifetime = false;
        for tree in trees {
            let is_literal = match &tree {
                TokenTree::Literal(literal) => !self.is_of_comment(literal)?,
                TokenTree::Ident(word) => is_truth(&word.to_string()) && !in_lifetime,
                _ => false,
            };
            if is_literal {
                let (lo, hi) = self.place(tree.span());
                out.push_str(&format!("{lo}..{hi} {}\n", line(&self.text[lo..hi])));
            }
            if let TokenTree::Group(group) = &tree {
                self.add(group.stream(), out)?;
            }
            in_lifetime = matches!(&tree, TokenTree::Punct(mark) if mark.as_char() == '\'');
        }
        Ok(())
    }
}

/// Returns a line for each literal of a source, including `true` and `false`: its byte range and its description.
pub fn all_literals(cut: &Cut<'_>) -> Result<String, Rejection> {
    let mut out = String::new();
    cut.add(cut.trees.clone(), &mut out)?;
    Ok(out)
}
