// Rendered from crates/rl_tokens/src/token.rt by tools/render, which erases contracts: change that file, and render again.
//! Token trees, the result of lexing a text.

use crate::rattle_std::prelude::{Vec};
use crate::rl_tokens::buffer::ParseBuffer;
use crate::rl_tokens::error::Error;
use crate::rl_tokens::ident::Ident;
use crate::rl_tokens::kept::Kept;
use crate::rl_tokens::literal::Literal;
use crate::rl_tokens::punct::Punct;
use crate::rl_syntax::Span;
use crate::rattle_std::alloc::{AllocFailed, Allocator, Global};

#[derive(Clone, Copy, PartialEq, Eq, Debug)]
pub enum Delimiter {
    Parenthesis,
    Brace,
    Bracket,
}

pub enum TokenTree<A: Allocator = Global> {
    Group(Group<A>),
    Ident(Ident<A>),
    Punct(Punct),
    Literal(Literal<A>),
}

pub struct Group<A: Allocator = Global> {
    delimiter: Delimiter,
    stream: TokenStream<A>,
    span: Span,
}

pub struct TokenStream<A: Allocator = Global> {
    trees: Vec<TokenTree<A>, A>,
}

impl<A: Allocator> TokenTree<A> {
    pub fn span(&self) -> Span {
        match self {
            TokenTree::Group(group) => group.span(),
            TokenTree::Ident(ident) => ident.span(),
            TokenTree::Punct(punct) => punct.span(),
            TokenTree::Literal(literal) => literal.span(),
        }
    }

    pub fn set_span(&mut self, span: Span) {
        match self {
            TokenTree::Group(group) => group.set_span(span),
            TokenTree::Ident(ident) => ident.set_span(span),
            TokenTree::Punct(punct) => punct.set_span(span),
            TokenTree::Literal(literal) => literal.set_span(span),
        }
    }

    fn respan(&mut self, span: Span) {
        match self {
            TokenTree::Group(group) => group.respan(span),
            other => other.set_span(span),
        }
    }

    fn map_by_byte_spans(&mut self, table: &[Span]) {
        match self {
            TokenTree::Group(group) => group.map_by_byte_spans(table),
            other => {
                let span = other.span();
                other.set_span(span.mapped_by_byte_spans(table));
            }
        }
    }
}

impl<A: Allocator> Group<A> {
    pub fn new(delimiter: Delimiter, stream: TokenStream<A>, span: Span) -> Group<A> {
        Group {
            delimiter,
            stream,
            span,
        }
    }

    pub fn delimiter(&self) -> Delimiter {
        self.delimiter
    }

    pub fn stream(&self) -> &TokenStream<A> {
        &self.stream
    }

    pub fn inside(&self) -> ParseBuffer<'_, A> {
        let hi = self.span.hi();
        let closer = Span::new(self.span.file(), hi.saturating_sub(1), hi);
        ParseBuffer::new(self.stream.trees(), closer)
    }

    pub fn span(&self) -> Span {
        self.span
    }

    pub fn set_span(&mut self, span: Span) {
        self.span = span;
    }

    fn respan(&mut self, span: Span) {
        self.set_span(span);
        self.stream.respan(span);
    }

    fn map_by_byte_spans(&mut self, table: &[Span]) {
        let span = self.span();
        self.set_span(span.mapped_by_byte_spans(table));
        self.stream.map_by_byte_spans(table);
    }
}

impl<A: Allocator> TokenStream<A> {
    pub fn new(alloc: A) -> TokenStream<A> {
        TokenStream {
            trees: Vec::new(alloc),
        }
    }

    pub fn append(&mut self, tree: TokenTree<A>) -> Result<(), Kept<TokenTree<A>, A>> {
        match self.push(tree) {
            Ok(()) => Ok(()),
            Err(failed) => {
                let value = failed.value;
                let error = Error::out_of_memory(value.span());
                Err(Kept { value, error })
            }
        }
    }

    pub(crate) fn push(&mut self, tree: TokenTree<A>) -> Result<(), AllocFailed<TokenTree<A>>> {
        self.trees.push(tree)
    }

    pub fn trees(&self) -> &[TokenTree<A>] {
        self.trees.as_slice()
    }

    pub fn respan(&mut self, span: Span) {
        for at in 0..self.trees.len() {
            self.trees[at].respan(span);
        }
    }

    pub fn map_by_byte_spans(&mut self, table: &[Span]) {
        for at in 0..self.trees.len() {
            self.trees[at].map_by_byte_spans(table);
        }
    }
}
