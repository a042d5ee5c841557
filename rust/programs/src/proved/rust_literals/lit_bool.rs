// Rendered from crates/rust_literals/src/lit_bool.rt by tools/render, which erases contracts: change that file, and render again.
//! The type of the literals `true` and `false`.

mod copies;

use crate::rl_fronts::{Front, begins_with_kind};
use crate::rl_syntax::Kind;
use crate::rl_tokens::{Error, Ident, Parse, ParseBuffer, Span, Token};
use crate::rattle_std::alloc::Allocator;

pub struct LitBool {
    pub value: bool,
    pub span: Span,
}

pub(crate) fn word(value: bool) -> &'static str {
    if value { "true" } else { "false" }
}

impl LitBool {
    pub fn new(value: bool, span: Span) -> LitBool {
        LitBool { value, span }
    }

    pub fn value(&self) -> bool {
        self.value
    }

    pub fn span(&self) -> Span {
        self.span
    }

    pub fn set_span(&mut self, span: Span) {
        *self = LitBool::new(self.value, span);
    }

    pub fn token<A: Allocator>(&self, alloc: A) -> Result<Ident<A>, Error<A>> {
        Ident::new(alloc, word(self.value), self.span)
    }
}

impl<A: Allocator> Parse<A> for LitBool {
    fn parse(_alloc: A, input: &mut ParseBuffer<'_, A>) -> Result<LitBool, Error<A>> {
        let mut ahead = input.fork();
        let Some(front) = Front::take(&mut ahead) else {
            return Err(input.error("boolean literal"));
        };
        let Some(value) = front.bool_value() else {
            let error = input.error("boolean literal");
            *input = ahead;
            return Err(error);
        };
        *input = ahead;
        Ok(LitBool::new(value, front.span()))
    }
}

impl Token for LitBool {
    fn peek<B: Allocator>(input: &ParseBuffer<'_, B>) -> bool {
        begins_with_kind(input, Kind::Bool)
    }

    fn display() -> &'static str {
        "boolean literal"
    }
}
