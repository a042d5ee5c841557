// Rendered from crates/rl_quoted/src/quoted.rt by tools/render, which erases contracts: change that file, and render again.
//! The type `Quoted`, which the five types of quoted literals are instances of: a token, its kind, and the byte offsets
//! of the parts of its text.

use crate::rl_quoted::written::written_body;
use crate::rl_cursors::{Segments, text_range};
use crate::rl_fronts::{begins_with_kind, take_literal_of_kind};
use crate::rl_lenient::{Body, Found, byte_of_body, char_of_body, parse_literal};
use crate::rl_syntax::Kind;
use crate::rl_tokens::{
    Error, Literal, Parse, ParseBuffer, Span, ToTokens, Token, TokenStream, append_literal,
};
use crate::rattle_std::alloc::{Allocator, Global};
use crate::rattle_std::fmt;
use crate::rattle_std::hash::{Hash, Hasher};
use crate::rattle_std::marker::PhantomData;

fn holds_some(text: &str) -> bool {
    !text.is_empty()
}

pub trait QuotedKind {
    const KIND: Kind;
}

pub struct Quoted<K: QuotedKind, A: Allocator = Global> {
    pub(crate) token: Literal<A>,
    body: Body,
    of: PhantomData<K>,
}

impl<K: QuotedKind, A: Allocator> Quoted<K, A> {
    pub fn of_token(token: Literal<A>) -> Quoted<K, A> {
        let found = parse_literal(token.text()).unwrap();
        Quoted::of_found(token, found)
    }

    #[inline(always)]
    pub fn of_found(token: Literal<A>, found: Found) -> Quoted<K, A> {
        Quoted {
            token,
            body: found.body,
            of: PhantomData,
        }
    }

    pub(crate) fn written(mut token: Literal<A>, value: &[u8], span: Span) -> Quoted<K, A> {
        token.set_span(span);
        let body = written_body(K::KIND, token.text(), value);
        Quoted {
            token,
            body,
            of: PhantomData,
        }
    }

    pub(crate) fn body(&self) -> (&str, bool) {
        let body = self.body;
        (&self.token.text()[body.lo..body.hi], body.plain)
    }

    fn between(&self) -> &str {
        let body = self.body;
        &self.token.text()[body.lo..body.hi]
    }

    pub(crate) fn single_body(&self) -> &str {
        self.between()
    }

    pub fn found(&self) -> Found {
        let between = self.between();
        let unit = match K::KIND {
            Kind::Byte => byte_of_body(between) as u32,
            Kind::Char => char_of_body(between) as u32,
            _ => 0,
        };
        Found {
            magnitude: 0,
            body: self.body,
            kind: K::KIND,
            truth: false,
            unit,
        }
    }

    pub fn segments(&self) -> Segments<'_> {
        Segments::of_body(K::KIND, self.token.text(), &self.body)
    }

    pub fn text_offset(&self, at: usize) -> usize {
        self.segments().text_offset(at)
    }

    pub fn text_offset_after(&self, at: usize) -> usize {
        self.segments().text_offset_after(at)
    }

    fn text_range(&self, lo: usize, hi: usize) -> (usize, usize) {
        text_range(K::KIND, self.token.text(), &self.body, lo, hi)
    }

    pub fn span_of(&self, lo: usize, hi: usize) -> Span {
        let span = self.span();
        if !self.spans_text() {
            return span;
        }
        let (first, last) = self.text_range(lo, hi);
        Span {
            file: span.file,
            lo: span.lo + first,
            hi: span.lo + last,
        }
    }

    pub(crate) fn spans_text(&self) -> bool {
        let len = self.token.text().len();
        let span = self.token.span();
        span.lo <= span.hi && span.hi - span.lo == len
    }

    pub fn suffix(&self) -> &str {
        &self.token.text()[self.body.suffix_at..]
    }

    pub fn has_suffix(&self) -> bool {
        holds_some(self.suffix())
    }

    pub fn text(&self) -> &str {
        self.token.text()
    }

    pub fn span(&self) -> Span {
        self.token.span()
    }

    pub fn set_span(&mut self, span: Span) {
        self.token.set_span(span);
    }

    pub fn token<B: Allocator>(&self, alloc: B) -> Result<Literal<B>, Error<B>> {
        Literal::from_text(alloc, self.token.text(), self.token.span())
    }

    pub fn clone<B: Allocator>(&self, alloc: B) -> Result<Quoted<K, B>, Error<B>> {
        match self.token.clone(alloc) {
            Ok(token) => Ok(Quoted {
                token,
                body: self.body,
                of: PhantomData,
            }),
            Err(error) => Err(error),
        }
    }
}

impl<K: QuotedKind, A: Allocator> Parse<A> for Quoted<K, A> {
    fn parse(alloc: A, input: &mut ParseBuffer<'_, A>) -> Result<Quoted<K, A>, Error<A>> {
        match take_literal_of_kind(alloc, input, K::KIND, K::KIND.description()) {
            Ok((token, found)) => Ok(Quoted::of_found(token, found)),
            Err(error) => Err(error),
        }
    }
}

impl<K: QuotedKind, A: Allocator> Token for Quoted<K, A> {
    fn peek<B: Allocator>(input: &ParseBuffer<'_, B>) -> bool {
        begins_with_kind(input, K::KIND)
    }

    fn display() -> &'static str {
        K::KIND.display_name()
    }
}

impl<K: QuotedKind, A: Allocator> PartialEq for Quoted<K, A> {
    fn eq(&self, other: &Self) -> bool {
        self.token.text() == other.token.text()
    }
}

impl<K: QuotedKind, A: Allocator> Eq for Quoted<K, A> {
}

impl<K: QuotedKind, A: Allocator> Hash for Quoted<K, A> {
    fn hash<H: Hasher>(&self, state: &mut H) {
        self.token.text().hash(state);
    }
}

impl<K: QuotedKind, A: Allocator> fmt::Display for Quoted<K, A> {
    fn fmt(&self, f: &mut fmt::Formatter<'_>) -> fmt::Result {
        f.pad(self.token.text())
    }
}

impl<K: QuotedKind, A: Allocator> fmt::Debug for Quoted<K, A> {
    fn fmt(&self, f: &mut fmt::Formatter<'_>) -> fmt::Result {
        let name = K::KIND.struct_name();
        let text = self.token.text();
        write!(f, "{name} {{ token: {text} }}")
    }
}

impl<K: QuotedKind, A: Allocator> ToTokens for Quoted<K, A> {
    fn to_tokens<B: Allocator>(&self, alloc: B, tokens: &mut TokenStream<B>) -> Result<(), Error<B>> {
        append_literal(alloc, &self.token, tokens)
    }
}
