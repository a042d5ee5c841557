// Rendered from crates/rl_fronts/src/front.rt by tools/render, which erases contracts: change that file, and render again.
//! The literal at the start of a parse buffer: a literal token, `true` or `false`, or a minus and a number.

use crate::rl_lenient::{Found, bool_of, parse_literal, parse_with_added_minus};
use crate::rl_tokens::{Error, Ident, Kind, Literal, ParseBuffer, Punct, Span};
use crate::rattle_std::alloc::Allocator;

pub struct Negative<'a, A: Allocator> {
    minus: &'a Punct,
    number: &'a Literal<A>,
    found: Found,
}

pub enum Front<'a, A: Allocator> {
    Literal(&'a Literal<A>),
    Word(&'a Ident<A>),
    Negative(Negative<'a, A>),
}

fn take_word<'a, A: Allocator>(input: &mut ParseBuffer<'a, A>) -> Option<&'a Ident<A>> {
    let mut ahead = input.fork();
    let word = ahead.ident()?;
    bool_of(word.text())?;
    *input = ahead;
    Some(word)
}

fn take_negative<'a, A: Allocator>(input: &mut ParseBuffer<'a, A>) -> Option<Negative<'a, A>> {
    let mut ahead = input.fork();
    let minus = ahead.punct()?;
    if minus.as_char() != '-' {
        return None;
    }
    let number = ahead.literal()?;
    let found = parse_with_added_minus(number.text())?;
    *input = ahead;
    Some(Negative {
        minus,
        number,
        found,
    })
}

fn joined_span(minus: Span, number: Span) -> Span {
    match minus.join(number) {
        Some(span) => span,
        None => minus,
    }
}

impl<'a, A: Allocator> Front<'a, A> {
    #[inline(always)]
    pub fn take(input: &mut ParseBuffer<'a, A>) -> Option<Front<'a, A>> {
        if let Some(token) = input.literal() {
            return Some(Front::Literal(token));
        }
        if let Some(word) = take_word(input) {
            return Some(Front::Word(word));
        }
        let negative = take_negative(input)?;
        Some(Front::Negative(negative))
    }

    pub fn parse_result(&self) -> Option<Found> {
        match self {
            Front::Literal(token) => parse_literal(token.text()),
            Front::Word(word) => parse_literal(word.text()),
            Front::Negative(negative) => Some(negative.found),
        }
    }

    pub fn kind(&self) -> Option<Kind> {
        let found = self.parse_result()?;
        Some(found.kind)
    }

    fn find_of_kind(&self, kind: Kind) -> Option<Found> {
        let found = self.parse_result()?;
        if found.kind == kind {
            Some(found)
        } else {
            None
        }
    }

    fn is_of_kind(&self, kind: Kind) -> bool {
        self.find_of_kind(kind).is_some()
    }

    pub fn bool_value(&self) -> Option<bool> {
        match self {
            Front::Literal(token) => bool_of(token.text()),
            Front::Word(word) => bool_of(word.text()),
            Front::Negative(_) => None,
        }
    }

    pub fn span(&self) -> Span {
        match self {
            Front::Literal(token) => token.span(),
            Front::Word(word) => word.span(),
            Front::Negative(negative) => joined_span(negative.minus.span(), negative.number.span()),
        }
    }

    pub fn token<B: Allocator>(&self, alloc: B) -> Result<Literal<B>, Error<B>> {
        match self {
            Front::Literal(token) => Literal::clone(token, alloc),
            Front::Word(word) => Literal::from_text(alloc, word.text(), word.span()),
            Front::Negative(negative) => negative.number.with_minus(alloc, self.span()),
        }
    }
}

pub fn begins_with_kind<A: Allocator>(input: &ParseBuffer<'_, A>, kind: Kind) -> bool {
    let mut ahead = input.fork();
    match Front::take(&mut ahead) {
        Some(front) => front.is_of_kind(kind),
        None => false,
    }
}

pub fn take_literal_of_kind<A: Allocator>(
    alloc: A,
    input: &mut ParseBuffer<'_, A>,
    kind: Kind,
    word: &'static str,
) -> Result<(Literal<A>, Found), Error<A>> {
    let mut ahead = input.fork();
    let Some(front) = Front::take(&mut ahead) else {
        return Err(input.error(word));
    };
    let Some(found) = front.find_of_kind(kind) else {
        let error = input.error(word);
        *input = ahead;
        return Err(error);
    };
    match front.token(alloc) {
        Ok(token) => {
            *input = ahead;
            Ok((token, found))
        }
        Err(error) => Err(Error::new(input.span(), error.kind)),
    }
}
