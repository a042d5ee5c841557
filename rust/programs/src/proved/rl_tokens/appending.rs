// Rendered from crates/rl_tokens/src/appending.rt by tools/render, which erases contracts: change that file, and render again.
//! Functions that append a token to a token stream.

use crate::rl_tokens::error::Error;
use crate::rl_tokens::ident::Ident;
use crate::rl_tokens::kept::Kept;
use crate::rl_tokens::literal::Literal;
use crate::rl_tokens::token::{TokenStream, TokenTree};
use crate::rattle_std::alloc::Allocator;

pub fn append_literal<A: Allocator, B: Allocator>(
    alloc: B,
    token: &Literal<A>,
    tokens: &mut TokenStream<B>,
) -> Result<(), Error<B>> {
    let copy = token.clone(alloc)?;
    tokens.append(TokenTree::Literal(copy))?;
    Ok(())
}

pub fn append_ident<A: Allocator>(
    ident: Ident<A>,
    tokens: &mut TokenStream<A>,
) -> Result<(), Kept<Ident<A>, A>> {
    let Err(Kept { value, error }) = tokens.append(TokenTree::Ident(ident)) else {
        return Ok(());
    };
    match value {
        TokenTree::Ident(value) => Err(Kept { value, error }),
        _ => unreachable!(),
    }
}
