// Rendered from crates/rl_attributes/src/attributes/take.rt by tools/render, which erases contracts: change that file, and render again.
//! The parser of a list of attributes from token trees.

use crate::rattle_std::prelude::{String, Vec};
use super::name::Name;
use super::{Attrs, Entry};
use crate::rl_cursors::Part;
use crate::rl_tokens::{Error, ErrorKind, Ident, Parse, ParseBuffer, Span, attempt};
use crate::rust_literals::Lit;
use crate::rattle_std::alloc::Allocator;
use crate::rattle_std::collections::BTreeSet;

type Names<'a, A> = BTreeSet<Name<'a>, A>;

fn take_name<'a, A: Allocator + Copy>(
    input: &mut ParseBuffer<'a, A>,
    names: &mut Names<'a, A>,
) -> Result<&'a Ident<A>, Error<A>> {
    let Some(name) = input.ident() else {
        return Err(input.error(Part::Name.noun()));
    };
    match names.insert(Name::new(name.text())) {
        Ok(true) => Ok(name),
        Ok(false) => Err(Error::new(name.span(), ErrorKind::Repeated)),
        Err(_) => Err(Error::out_of_memory(name.span())),
    }
}

fn take_entry<'a, A: Allocator + Copy>(
    alloc: A,
    input: &mut ParseBuffer<'a, A>,
    names: &mut Names<'a, A>,
) -> Result<Entry<A>, Error<A>> {
    let ident = take_name(input, names)?;
    let name = String::from_str(alloc, ident.text())?;
    input.take_punct('=')?;
    let value = input.parse::<Lit<A>>(alloc)?;
    Ok(Entry {
        name,
        span: ident.span(),
        value,
    })
}

fn take_next<'a, A: Allocator + Copy>(
    alloc: A,
    input: &mut ParseBuffer<'a, A>,
    names: &mut Names<'a, A>,
) -> Result<Entry<A>, Error<A>> {
    let entry = take_entry(alloc, input, names)?;
    if !input.is_empty() {
        if let Err(error) = input.take_punct(',') {
            drop(entry);
            return Err(error);
        }
    }
    Ok(entry)
}

fn take_all<A: Allocator + Copy>(
    alloc: A,
    input: &mut ParseBuffer<'_, A>,
) -> Result<Attrs<A>, Error<A>> {
    let mut names = BTreeSet::new(alloc);
    let mut entries = Vec::new(alloc);
    while !input.is_empty() {
        let entry = take_next(alloc, input, &mut names)?;
        if let Err(failed) = entries.push(entry) {
            drop(failed);
            return Err(Error::out_of_memory(input.span()));
        }
    }
    Ok(Attrs {
        entries,
        end: input.span(),
    })
}

fn with_memory_at<A: Allocator>(error: Error<A>, place: Span) -> Error<A> {
    match error.kind {
        ErrorKind::Memory => Error::out_of_memory(place),
        kind => Error::new(error.span, kind),
    }
}

impl<A: Allocator + Copy> Parse<A> for Attrs<A> {
    fn parse(alloc: A, input: &mut ParseBuffer<'_, A>) -> Result<Attrs<A>, Error<A>> {
        let place = input.span();
        match attempt(input, |input| take_all(alloc, input)) {
            Ok(attrs) => Ok(attrs),
            Err(error) => Err(with_memory_at(error, place)),
        }
    }
}
