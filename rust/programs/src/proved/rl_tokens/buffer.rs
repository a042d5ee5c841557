// Rendered from crates/rl_tokens/src/buffer.rt by tools/render, which erases contracts: change that file, and render again.
//! The buffer of token trees that parsers consume.

use crate::rl_tokens::error::{Error, ErrorKind};
use crate::rl_tokens::ident::Ident;
use crate::rl_tokens::literal::Literal;
use crate::rl_tokens::punct::{Punct, word_of};
use crate::rl_tokens::token::{Group, TokenTree};
use crate::rl_syntax::Span;
use crate::rl_syntax::text::split_char;
use crate::rattle_std::alloc::{Allocator, Global};

pub struct ParseBuffer<'a, A: Allocator = Global> {
    trees: &'a [TokenTree<A>],
    scope: Span,
}

impl<'a, A: Allocator> ParseBuffer<'a, A> {
    pub fn new(trees: &'a [TokenTree<A>], scope: Span) -> ParseBuffer<'a, A> {
        ParseBuffer { trees, scope }
    }

    pub fn is_empty(&self) -> bool {
        self.trees.is_empty()
    }

    pub fn span(&self) -> Span {
        match self.trees.first() {
            Some(tree) => tree.span(),
            None => self.scope,
        }
    }

    pub fn fork(&self) -> ParseBuffer<'a, A> {
        ParseBuffer {
            trees: self.trees,
            scope: self.scope,
        }
    }

    pub fn rest(&self) -> &'a [TokenTree<A>] {
        &self.trees[..]
    }

    pub fn literal(&mut self) -> Option<&'a Literal<A>> {
        let (first, rest) = self.trees.split_first()?;
        match first {
            TokenTree::Literal(literal) => {
                self.trees = rest;
                Some(literal)
            }
            _ => None,
        }
    }

    pub fn ident(&mut self) -> Option<&'a Ident<A>> {
        let (first, rest) = self.trees.split_first()?;
        match first {
            TokenTree::Ident(ident) => {
                self.trees = rest;
                Some(ident)
            }
            _ => None,
        }
    }

    pub fn punct(&mut self) -> Option<&'a Punct> {
        let (first, rest) = self.trees.split_first()?;
        match first {
            TokenTree::Punct(punct) => {
                self.trees = rest;
                Some(punct)
            }
            _ => None,
        }
    }

    pub fn peek_punct(&self, ch: char) -> bool {
        match self.fork().punct() {
            Some(punct) => punct.as_char() == ch,
            None => false,
        }
    }

    pub fn take_punct(&mut self, ch: char) -> Result<&'a Punct, Error<A>> {
        match self.mark(ch) {
            Some(punct) => Ok(punct),
            None => Err(self.error(word_of(ch))),
        }
    }

    fn mark(&mut self, ch: char) -> Option<&'a Punct> {
        if !self.peek_punct(ch) {
            return None;
        }
        self.punct()
    }

    pub fn joint_puncts(&mut self, marks: &str) -> Option<Span> {
        let Span { file, lo, .. } = self.span();
        let mut ahead = self.fork();
        let Some(span) = ahead.next_puncts(marks, Span { file, lo, hi: lo }) else {
            return None;
        };
        self.trees = ahead.trees;
        Some(span)
    }

    fn next_puncts(&mut self, marks: &str, before: Span) -> Option<Span> {
        let Some((ch, more)) = split_char(marks) else {
            return Some(before);
        };
        let at = self.mark(ch)?.span();
        if at.file != before.file || at.lo != before.hi {
            return None;
        }
        let mut joined = before;
        joined.hi = at.hi;
        self.next_puncts(more, joined)
    }

    pub fn group(&mut self) -> Option<&'a Group<A>> {
        let (first, rest) = self.trees.split_first()?;
        match first {
            TokenTree::Group(group) => {
                self.trees = rest;
                Some(group)
            }
            _ => None,
        }
    }

    pub fn error(&self, word: &'static str) -> Error<A> {
        let span = self.span();
        let kind = if self.trees.is_empty() {
            ErrorKind::EndOfInput(word)
        } else {
            ErrorKind::Expected(word)
        };
        Error { span, kind }
    }
}
