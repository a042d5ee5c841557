// Rendered from crates/rl_cursors/src/source_literals.rt by tools/render, which erases contracts: change that file, and render again.
//! A function that returns the next literal of a whole Rust source.

use crate::rl_lenient::{Found, parse_literal};
use crate::rl_lexer::{LexError, SourceToken, Sources};

#[derive(Clone, Copy)]
pub enum SourceStep<'t> {
    End,
    Literal(SourceToken<'t>, Option<Found>),
    Rejected(LexError),
}

#[inline(always)]
pub fn next_source_literal<'t>(tokens: &mut Sources<'t>) -> SourceStep<'t> {
    match tokens.next_literal() {
        Some(token) => SourceStep::Literal(token, parse_literal(token.text)),
        None => match tokens.error() {
            Some(error) => SourceStep::Rejected(error),
            None => SourceStep::End,
        },
    }
}
