// Rendered from crates/rl_tokens/src/whole.rt by tools/render, which erases contracts: change that file, and render again.
//! Functions that lex a whole text, or parse it as one value.

use crate::rattle_std::prelude::{Drop};
use crate::rl_tokens::buffer::ParseBuffer;
use crate::rl_tokens::error::{Error, ErrorKind};
use crate::rl_tokens::lexer::lex;
use crate::rl_tokens::parse::Parse;
use crate::rl_tokens::token::TokenStream;
use crate::rl_syntax::Span;
use crate::rattle_std::alloc::Allocator;

pub fn lex_for_parsing<A: Allocator + Copy>(
    alloc: A,
    text: &str,
    file: u32,
) -> Result<TokenStream<A>, Error<A>> {
    match lex(alloc, text, file) {
        Ok(stream) => Ok(stream),
        Err(error) => {
            let at = Span::new(file, error.at, error.at);
            Err(Error::of_lexer(error.kind, at))
        }
    }
}

fn parse_trees<T: Parse<A> + Drop, A: Allocator>(
    alloc: A,
    stream: &TokenStream<A>,
    scope: Span,
) -> Result<T, Error<A>> {
    let mut input = ParseBuffer::new(stream.trees(), scope);
    let value = T::parse(alloc, &mut input)?;
    if !input.is_empty() {
        return Err(Error::new(input.span(), ErrorKind::Unexpected));
    }
    Ok(value)
}

pub fn parse_all<T: Parse<A> + Drop, A: Allocator + Copy>(
    alloc: A,
    text: &str,
    file: u32,
) -> Result<T, Error<A>> {
    let end = Span::new(file, text.len(), text.len());
    match lex_for_parsing(alloc, text, file) {
        Ok(stream) => parse_trees(alloc, &stream, end),
        Err(error) => Err(error),
    }
}
