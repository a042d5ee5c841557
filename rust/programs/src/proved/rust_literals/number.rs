// Rendered from crates/rust_literals/src/number.rt by tools/render, which erases contracts: change that file, and render again.
//! The type `Number`, of which `LitInt` and `LitFloat` are instances: a token, its digits in base ten, and the byte
//! offset of its suffix.

use crate::rattle_std::prelude::{String};
mod base10;
mod copies;

use crate::rl_fronts::{begins_with_kind, digits_of_found, take_literal_of_kind};
use crate::rl_lenient::Found;
use crate::rl_syntax::Kind;
use crate::rl_tokens::{Error, ErrorKind, Kept, Literal, Parse, ParseBuffer, Span, Token};
use crate::rattle_std::alloc::{Allocator, Global};
use crate::rattle_std::fmt;
use crate::rattle_std::marker::PhantomData;

pub trait NumberKind {
    const KIND: Kind;

    fn find<A: Allocator>(text: &str) -> Result<Found, ErrorKind<A>>;
}

#[inline(always)]
fn own_digits<A: Allocator>(
    alloc: A,
    text: &str,
    found: Found,
) -> Result<Option<String<A>>, Error<A>> {
    if found.body.plain {
        return Ok(None);
    }
    Ok(Some(digits_of_found(alloc, text, found)?))
}

pub struct Number<K: NumberKind, A: Allocator = Global> {
    token: Literal<A>,
    digits: Option<String<A>>,
    suffix_at: usize,
    of: PhantomData<K>,
}

impl<K: NumberKind, A: Allocator + Copy> Number<K, A> {
    pub fn new(alloc: A, repr: &str, span: Span) -> Result<Number<K, A>, Error<A>> {
        let found = match K::find(repr) {
            Ok(found) => found,
            Err(kind) => return Err(Error { span, kind }),
        };
        let token = match Literal::from_text(alloc, repr, span) {
            Ok(token) => token,
            Err(error) => return Err(error),
        };
        match Number::of_found(alloc, token, found) {
            Ok(literal) => Ok(literal),
            Err(Kept { error, .. }) => Err(error),
        }
    }
}

impl<K: NumberKind, A: Allocator> Number<K, A> {
    pub fn from_token(alloc: A, token: Literal<A>) -> Result<Number<K, A>, Kept<Literal<A>, A>> {
        match K::find(token.text()) {
            Ok(found) => Number::of_found(alloc, token, found),
            Err(kind) => {
                let error = Error {
                    span: token.span(),
                    kind,
                };
                Err(Kept {
                    value: token,
                    error,
                })
            }
        }
    }

    #[inline(always)]
    pub(crate) fn of_found(
        alloc: A,
        token: Literal<A>,
        found: Found,
    ) -> Result<Number<K, A>, Kept<Literal<A>, A>> {
        match own_digits(alloc, token.text(), found) {
            Ok(digits) => Ok(Number {
                token,
                digits,
                suffix_at: found.body.suffix_at,
                of: PhantomData,
            }),
            Err(_) => {
                let error = Error::out_of_memory(token.span());
                Err(Kept {
                    value: token,
                    error,
                })
            }
        }
    }

    pub fn base10_digits(&self) -> &str {
        match &self.digits {
            Some(digits) => digits.as_str(),
            None => &self.token.text()[..self.suffix_at],
        }
    }

    pub fn suffix(&self) -> &str {
        &self.token.text()[self.suffix_at..]
    }

    pub fn text(&self) -> &str {
        self.token.text()
    }

    pub fn span(&self) -> Span {
        self.token.span()
    }

    pub fn set_span(&mut self, span: Span) {
        self.token.set_span(span);
    }
}

impl<K: NumberKind, A: Allocator> fmt::Display for Number<K, A> {
    fn fmt(&self, f: &mut fmt::Formatter<'_>) -> fmt::Result {
        f.pad(self.token.text())
    }
}

impl<K: NumberKind, A: Allocator + Copy> Parse<A> for Number<K, A> {
    fn parse(alloc: A, input: &mut ParseBuffer<'_, A>) -> Result<Number<K, A>, Error<A>> {
        let before = input.fork();
        let (token, found) = match take_literal_of_kind(
            alloc,
            input,
            K::KIND,
            K::KIND.description(),
        ) {
            Ok(taken) => taken,
            Err(error) => return Err(error),
        };
        match Number::of_found(alloc, token, found) {
            Ok(literal) => Ok(literal),
            Err(_) => {
                *input = before;
                Err(Error::out_of_memory(input.span()))
            }
        }
    }
}

impl<K: NumberKind, A: Allocator> Token for Number<K, A> {
    fn peek<B: Allocator>(input: &ParseBuffer<'_, B>) -> bool {
        begins_with_kind(input, K::KIND)
    }

    fn display() -> &'static str {
        K::KIND.display_name()
    }
}
