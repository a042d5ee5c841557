// Rendered from crates/rust_literals/src/lit.rt by tools/render, which erases contracts: change that file, and render again.
//! The type `Lit` of literals of any kind.

mod copies;

use crate::rust_literals::lit_bool::{LitBool, word};
use crate::rust_literals::lit_float::LitFloat;
use crate::rust_literals::lit_int::LitInt;
use crate::rust_literals::number::{Number, NumberKind};
use crate::rl_fronts::Front;
use crate::rl_lenient::{Found, parse_literal};
use crate::rl_quoted::{LitByte, LitByteStr, LitCStr, LitChar, LitStr, Quoted, QuotedKind};
use crate::rl_syntax::Kind;
use crate::rl_tokens::{Error, Kept, Literal, Parse, ParseBuffer, Span, Token};
use crate::rattle_std::alloc::{Allocator, Global};

pub enum Lit<A: Allocator = Global> {
    Str(LitStr<A>),
    ByteStr(LitByteStr<A>),
    CStr(LitCStr<A>),
    Byte(LitByte<A>),
    Char(LitChar<A>),
    Int(LitInt<A>),
    Float(LitFloat<A>),
    Bool(LitBool),
    Verbatim(Literal<A>),
}

#[derive(Clone, Copy)]
struct View<'a> {
    kind: Option<Kind>,
    text: &'a str,
    suffix: &'a str,
    span: Span,
}

impl<'a> View<'a> {
    #[inline(always)]
    fn of_quoted<K: QuotedKind, A: Allocator>(literal: &'a Quoted<K, A>) -> View<'a> {
        View {
            kind: Some(K::KIND),
            text: literal.text(),
            suffix: literal.suffix(),
            span: literal.span(),
        }
    }

    #[inline(always)]
    fn of_number<K: NumberKind, A: Allocator>(literal: &'a Number<K, A>) -> View<'a> {
        View {
            kind: Some(K::KIND),
            text: literal.text(),
            suffix: literal.suffix(),
            span: literal.span(),
        }
    }
}

impl<A: Allocator> Lit<A> {
    pub fn new(alloc: A, token: Literal<A>) -> Result<Lit<A>, Kept<Literal<A>, A>> {
        let found = parse_literal(token.text());
        Lit::of_found(alloc, token, found)
    }

    #[inline(always)]
    pub(crate) fn of_found(
        alloc: A,
        token: Literal<A>,
        found: Option<Found>,
    ) -> Result<Lit<A>, Kept<Literal<A>, A>> {
        let Some(found) = found else {
            return Ok(Lit::Verbatim(token));
        };
        match found.kind {
            Kind::Str => Ok(Lit::Str(LitStr::of_found(token, found))),
            Kind::ByteStr => Ok(Lit::ByteStr(LitByteStr::of_found(token, found))),
            Kind::CStr => Ok(Lit::CStr(LitCStr::of_found(token, found))),
            Kind::Byte => Ok(Lit::Byte(LitByte::of_found(token, found))),
            Kind::Char => Ok(Lit::Char(LitChar::of_found(token, found))),
            Kind::Int => Ok(Lit::Int(LitInt::of_found(alloc, token, found)?)),
            Kind::Float => Ok(Lit::Float(LitFloat::of_found(alloc, token, found)?)),
            Kind::Bool => Ok(Lit::Bool(LitBool::new(found.truth, token.span()))),
        }
    }
}

impl<A: Allocator> Lit<A> {
    #[inline(always)]
    fn view(&self) -> View<'_> {
        match self {
            Lit::Str(literal) => View::of_quoted(literal),
            Lit::ByteStr(literal) => View::of_quoted(literal),
            Lit::CStr(literal) => View::of_quoted(literal),
            Lit::Byte(literal) => View::of_quoted(literal),
            Lit::Char(literal) => View::of_quoted(literal),
            Lit::Int(literal) => View::of_number(literal),
            Lit::Float(literal) => View::of_number(literal),
            Lit::Bool(literal) => View {
                kind: Some(Kind::Bool),
                text: word(literal.value),
                suffix: "",
                span: literal.span,
            },
            Lit::Verbatim(token) => View {
                kind: None,
                text: token.text(),
                suffix: "",
                span: token.span(),
            },
        }
    }

    pub fn kind(&self) -> Option<Kind> {
        self.view().kind
    }

    pub fn text(&self) -> &str {
        self.view().text
    }

    pub fn suffix(&self) -> &str {
        self.view().suffix
    }

    pub fn span(&self) -> Span {
        self.view().span
    }

    pub fn set_span(&mut self, span: Span) {
        match self {
            Lit::Str(literal) => literal.set_span(span),
            Lit::ByteStr(literal) => literal.set_span(span),
            Lit::CStr(literal) => literal.set_span(span),
            Lit::Byte(literal) => literal.set_span(span),
            Lit::Char(literal) => literal.set_span(span),
            Lit::Int(literal) => literal.set_span(span),
            Lit::Float(literal) => literal.set_span(span),
            Lit::Bool(literal) => literal.set_span(span),
            Lit::Verbatim(token) => token.set_span(span),
        }
    }
}

fn of_front<A: Allocator + Copy>(alloc: A, front: &Front<'_, A>) -> Option<Lit<A>> {
    if let Some(value) = front.bool_value() {
        return Some(Lit::Bool(LitBool::new(value, front.span())));
    }
    let Ok(token) = front.token(alloc) else {
        return None;
    };
    match Lit::of_found(alloc, token, front.parse_result()) {
        Ok(literal) => Some(literal),
        Err(_) => None,
    }
}

impl<A: Allocator + Copy> Parse<A> for Lit<A> {
    fn parse(alloc: A, input: &mut ParseBuffer<'_, A>) -> Result<Lit<A>, Error<A>> {
        let mut ahead = input.fork();
        let Some(front) = Front::take(&mut ahead) else {
            return Err(input.error("literal"));
        };
        match of_front(alloc, &front) {
            Some(literal) => {
                *input = ahead;
                Ok(literal)
            }
            None => Err(Error::out_of_memory(input.span())),
        }
    }
}

impl<A: Allocator> Token for Lit<A> {
    fn peek<B: Allocator>(input: &ParseBuffer<'_, B>) -> bool {
        let mut ahead = input.fork();
        match Front::take(&mut ahead) {
            Some(_) => true,
            None => false,
        }
    }

    fn display() -> &'static str {
        "literal"
    }
}

impl<A: Allocator> From<LitStr<A>> for Lit<A> {
    fn from(literal: LitStr<A>) -> Lit<A> {
        Lit::Str(literal)
    }
}

impl<A: Allocator> From<LitByteStr<A>> for Lit<A> {
    fn from(literal: LitByteStr<A>) -> Lit<A> {
        Lit::ByteStr(literal)
    }
}

impl<A: Allocator> From<LitCStr<A>> for Lit<A> {
    fn from(literal: LitCStr<A>) -> Lit<A> {
        Lit::CStr(literal)
    }
}

impl<A: Allocator> From<LitByte<A>> for Lit<A> {
    fn from(literal: LitByte<A>) -> Lit<A> {
        Lit::Byte(literal)
    }
}

impl<A: Allocator> From<LitChar<A>> for Lit<A> {
    fn from(literal: LitChar<A>) -> Lit<A> {
        Lit::Char(literal)
    }
}

impl<A: Allocator> From<LitInt<A>> for Lit<A> {
    fn from(literal: LitInt<A>) -> Lit<A> {
        Lit::Int(literal)
    }
}

impl<A: Allocator> From<LitFloat<A>> for Lit<A> {
    fn from(literal: LitFloat<A>) -> Lit<A> {
        Lit::Float(literal)
    }
}

impl<A: Allocator> From<LitBool> for Lit<A> {
    fn from(literal: LitBool) -> Lit<A> {
        Lit::Bool(literal)
    }
}
