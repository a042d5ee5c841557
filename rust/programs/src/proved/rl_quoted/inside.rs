// Rendered from crates/rl_quoted/src/inside.rt by tools/render, which erases contracts: change that file, and render again.
//! Methods that parse the decoded value of a string literal.

use crate::rattle_std::prelude::{Drop, String};
use crate::rl_quoted::lit_str::LitStr;
use crate::rl_fronts::value_byte_spans;
use crate::rl_tokens::{
    ByParse, Error, ErrorKind, Parse, ParseBuffer, Parser, Span, TokenStream, lex_for_parsing,
};
use crate::rattle_std::alloc::Allocator;

#[derive(Clone, Copy)]
enum Placing {
    AtLiteral,
    InFile,
}

impl<A: Allocator> LitStr<A> {
    fn reported_at(&self, placing: Placing, span: Span) -> Span {
        match placing {
            Placing::AtLiteral => self.span(),
            Placing::InFile => self.span_of(span.lo, span.hi),
        }
    }

    fn leftover_span<B: Allocator>(&self, placing: Placing, left: &ParseBuffer<'_, B>) -> Span {
        match placing {
            Placing::AtLiteral => self.span(),
            Placing::InFile => left.span(),
        }
    }

    fn move_trees<B: Allocator>(
        &self,
        alloc: B,
        stream: &mut TokenStream<B>,
    ) -> Result<(), Error<B>> {
        let span = self.span();
        if !self.spans_text() {
            stream.respan(span);
            return Ok(());
        }
        match value_byte_spans(alloc, self.segments(), span) {
            Ok(table) => {
                stream.map_by_byte_spans(table.as_slice());
                Ok(())
            }
            Err(_) => Err(Error::out_of_memory(span)),
        }
    }

    fn place_trees<B: Allocator>(
        &self,
        placing: Placing,
        alloc: B,
        stream: &mut TokenStream<B>,
    ) -> Result<(), Error<B>> {
        match placing {
            Placing::AtLiteral => {
                stream.respan(self.span());
                Ok(())
            }
            Placing::InFile => self.move_trees(alloc, stream),
        }
    }

    fn trees_inside<B: Allocator + Copy>(
        &self,
        placing: Placing,
        alloc: B,
    ) -> Result<TokenStream<B>, Error<B>> {
        let value = self.value(alloc)?;
        match lex_for_parsing(alloc, value.as_str(), self.span().file()) {
            Ok(mut stream) => {
                self.place_trees(placing, alloc, &mut stream)?;
                Ok(stream)
            }
            Err(error) => Err(Error {
                span: self.reported_at(placing, error.span),
                kind: error.kind,
            }),
        }
    }

    fn reject_suffix<B: Allocator>(&self, alloc: B) -> Result<(), Error<B>> {
        let suffix = self.suffix();
        if suffix.is_empty() {
            return Ok(());
        }
        let span = self.span();
        match String::from_str(alloc, suffix) {
            Ok(suffix) => Err(Error {
                span,
                kind: ErrorKind::Suffix(suffix),
            }),
            Err(_) => Err(Error::out_of_memory(span)),
        }
    }

    fn parse_whole<P: Parser<B>, B: Allocator + Copy>(
        &self,
        placing: Placing,
        alloc: B,
        parser: P,
    ) -> Result<P::Output, Error<B>>
    where
        P: Drop,
        P::Output: Drop, {
        let stream = self.trees_inside(placing, alloc)?;
        let mut inside = ParseBuffer::new(stream.trees(), self.span());
        let parsed = parser.parse(alloc, &mut inside)?;
        if !inside.is_empty() {
            return Err(Error {
                span: self.leftover_span(placing, &inside),
                kind: ErrorKind::Unexpected,
            });
        }
        Ok(parsed)
    }

    fn parse_placed<P: Parser<B>, B: Allocator + Copy>(
        &self,
        placing: Placing,
        alloc: B,
        parser: P,
    ) -> Result<P::Output, Error<B>>
    where
        P: Drop,
        P::Output: Drop, {
        let parsed = self.parse_whole(placing, alloc, parser)?;
        self.reject_suffix(alloc)?;
        Ok(parsed)
    }

    pub fn parse_with<P: Parser<B>, B: Allocator + Copy>(
        &self,
        alloc: B,
        parser: P,
    ) -> Result<P::Output, Error<B>>
    where
        P: Drop,
        P::Output: Drop, {
        self.parse_placed(Placing::AtLiteral, alloc, parser)
    }

    pub fn parse_in_file<P: Parser<B>, B: Allocator + Copy>(
        &self,
        alloc: B,
        parser: P,
    ) -> Result<P::Output, Error<B>>
    where
        P: Drop,
        P::Output: Drop, {
        self.parse_placed(Placing::InFile, alloc, parser)
    }

    pub fn parse<T: Parse<B> + Drop, B: Allocator + Copy>(&self, alloc: B) -> Result<T, Error<B>> {
        self.parse_with(alloc, ByParse::<T>::new())
    }
}
