// Rendered from crates/rl_tokens/src/nest.rt by tools/render, which erases contracts: change that file, and render again.
//! The builder that collects tokens into token trees while a text is lexed.

use crate::rattle_std::prelude::{String, Vec};
use crate::rl_tokens::ident::Ident;
use crate::rl_tokens::literal::Literal;
use crate::rl_tokens::punct::Punct;
use crate::rl_tokens::token::{Delimiter, Group, TokenStream, TokenTree};
use crate::rl_lexer::{Form, LexError, LexKind, is_opener};
use crate::rl_syntax::Span;
use crate::rattle_std::alloc::Allocator;
use crate::rattle_std::mem;

const MAX_OPEN: usize = 128;

pub(crate) struct GroupBuilder<A: Allocator> {
    delimiter: Delimiter,
    at: usize,
    before: TokenStream<A>,
}

pub(crate) struct TreeBuilder<A: Allocator> {
    alloc: A,
    file: u32,
    opened: Vec<GroupBuilder<A>, A>,
    trees: TokenStream<A>,
}

impl<A: Allocator + Copy> TreeBuilder<A> {
    pub(crate) fn new(alloc: A, file: u32) -> TreeBuilder<A> {
        TreeBuilder {
            alloc,
            file,
            opened: Vec::new(alloc),
            trees: TokenStream::new(alloc),
        }
    }

    pub(crate) fn add(
        &mut self,
        form: Form,
        text: &str,
        lo: usize,
        hi: usize,
    ) -> Result<(), LexError> {
        let span = Span::new(self.file, lo, hi);
        match form {
            Form::Literal => match String::from_str(self.alloc, text) {
                Ok(text) => self.append(TokenTree::Literal(Literal::of_string(text, span)), lo),
                Err(_) => Err(LexError::new(LexKind::Memory, lo)),
            },
            Form::Identifier => match String::from_str(self.alloc, text) {
                Ok(text) => self.append(TokenTree::Ident(Ident::of_string(text, span)), lo),
                Err(_) => Err(LexError::new(LexKind::Memory, lo)),
            },
            Form::Mark(c) => self.append(TokenTree::Punct(Punct::new(c, span)), lo),
            Form::Delimiter(c) => {
                if is_opener(c) {
                    self.open_group(delimiter_for(c), lo)
                } else {
                    self.close_group(delimiter_for(c), lo, hi)
                }
            }
        }
    }

    pub(crate) fn finish(self) -> Result<TokenStream<A>, LexError> {
        let TreeBuilder {
            mut opened,
            trees,
            ..
        } = self;
        match opened.pop() {
            Some(innermost) => Err(LexError::new(LexKind::UnclosedGroup, innermost.at)),
            None => Ok(trees),
        }
    }

    #[inline(always)]
    fn append(&mut self, tree: TokenTree<A>, at: usize) -> Result<(), LexError> {
        if let Err(_failure) = self.trees.push(tree) {
            return Err(LexError::new(LexKind::Memory, at));
        }
        Ok(())
    }

    #[inline(never)]
    fn open_group(&mut self, delimiter: Delimiter, at: usize) -> Result<(), LexError> {
        if self.opened.len() >= MAX_OPEN {
            return Err(LexError::new(LexKind::TooDeep, at));
        }
        let before = mem::replace(&mut self.trees, TokenStream::new(self.alloc));
        let opened = GroupBuilder {
            delimiter,
            at,
            before,
        };
        if let Err(_failure) = self.opened.push(opened) {
            return Err(LexError::new(LexKind::Memory, at));
        }
        Ok(())
    }

    #[inline(never)]
    fn close_group(&mut self, delimiter: Delimiter, lo: usize, hi: usize) -> Result<(), LexError> {
        let Some(open) = self.opened.pop() else {
            return Err(LexError::new(LexKind::UnmatchedClose, lo));
        };
        if open.delimiter != delimiter {
            return Err(LexError::new(LexKind::UnmatchedClose, lo));
        }
        let inside = mem::replace(&mut self.trees, open.before);
        let span = Span::new(self.file, open.at, hi);
        self.append(TokenTree::Group(Group::new(delimiter, inside, span)), lo)
    }
}

fn delimiter_for(c: char) -> Delimiter {
    match c {
        '(' | ')' => Delimiter::Parenthesis,
        '[' | ']' => Delimiter::Bracket,
        _ => Delimiter::Brace,
    }
}
