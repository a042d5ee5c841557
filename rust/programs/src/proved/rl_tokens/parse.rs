// Rendered from crates/rl_tokens/src/parse.rt by tools/render, which erases contracts: change that file, and render again.
//! Traits of types whose values are parsed from a parse buffer, found at its start without parsing, or appended to a
//! token stream.

use crate::rl_tokens::buffer::ParseBuffer;
use crate::rl_tokens::error::Error;
use crate::rl_tokens::token::TokenStream;
use crate::rattle_std::alloc::Allocator;
use crate::rattle_std::marker::PhantomData;

pub trait Parse<A: Allocator>: Sized {
    fn parse(alloc: A, input: &mut ParseBuffer<'_, A>) -> Result<Self, Error<A>>;
}

pub trait Parser<A: Allocator>: Sized {
    type Output;

    fn parse(self, alloc: A, input: &mut ParseBuffer<'_, A>) -> Result<Self::Output, Error<A>>;
}

pub struct ByParse<T> {
    parsed: PhantomData<T>,
}

impl<T> ByParse<T> {
    pub fn new() -> ByParse<T> {
        ByParse {
            parsed: PhantomData,
        }
    }
}

impl<A: Allocator, T: Parse<A>> Parser<A> for ByParse<T> {
    type Output = T;

    fn parse(self, alloc: A, input: &mut ParseBuffer<'_, A>) -> Result<T, Error<A>> {
        T::parse(alloc, input)
    }
}

pub trait Token {
    fn peek<A: Allocator>(input: &ParseBuffer<'_, A>) -> bool;

    fn display() -> &'static str;
}

pub trait ToTokens {
    fn to_tokens<A: Allocator>(&self, alloc: A, tokens: &mut TokenStream<A>) -> Result<(), Error<A>>;
}

impl<'a, A: Allocator> ParseBuffer<'a, A> {
    pub fn parse<T: Parse<A>>(&mut self, alloc: A) -> Result<T, Error<A>> {
        T::parse(alloc, self)
    }

    pub fn peek<T: Token>(&self) -> bool {
        T::peek(self)
    }
}
