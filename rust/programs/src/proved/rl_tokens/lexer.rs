// Rendered from crates/rl_tokens/src/lexer.rt by tools/render, which erases contracts: change that file, and render again.
//! The lexer, which turns a text into token trees.

use crate::rl_tokens::nest::TreeBuilder;
use crate::rl_tokens::token::TokenStream;
use crate::rl_lexer::{LexError, Tokens};
use crate::rattle_std::alloc::Allocator;

pub fn lex<A: Allocator + Copy>(alloc: A, text: &str, file: u32) -> Result<TokenStream<A>, LexError> {
    trees_of(alloc, text, file)
}

#[inline(always)]
fn trees_of<A: Allocator + Copy>(
    alloc: A,
    text: &str,
    file: u32,
) -> Result<TokenStream<A>, LexError> {
    let mut nest = TreeBuilder::new(alloc, file);
    let mut tokens = Tokens::new(text);
    while let Some(token) = tokens.next() {
        nest.add(token.form, token.text, token.lo, token.hi)?;
    }
    match tokens.error() {
        Some(error) => Err(error),
        None => nest.finish(),
    }
}
