// Rendered from crates/rl_scan/src/literal.rt by tools/render, which erases contracts: change that file, and render again.
//! A literal of a source with its parse result: its printed line, and its value.

use crate::rattle_std::prelude::{String, Vec};
use crate::rl_scan::failure::Appended;
use crate::rl_fronts::{bytes_of_body, str_of_body};
use crate::rl_lenient::{Found, parse_literal};
use crate::rl_program::push_found_line;
use crate::rl_syntax::Kind;
use crate::rattle_std::alloc::{AllocError, Allocator};

pub(crate) struct Literal<'t> {
    text: &'t str,
    found: Option<Found>,
}

fn value_of<A: Allocator + Copy>(
    alloc: A,
    text: &str,
    found: &Found,
) -> Result<Vec<u8, A>, AllocError> {
    match found.kind {
        Kind::Str => match str_of_body(alloc, found.body_in(text), found.body.plain) {
            Ok(value) => Ok(value.into_bytes()),
            Err(_) => Err(AllocError),
        },
        Kind::ByteStr | Kind::CStr => {
            match bytes_of_body(alloc, found.kind, found.body_in(text), found.body.plain) {
                Ok(value) => Ok(value),
                Err(_) => Err(AllocError),
            }
        }
        Kind::Char => {
            let mut value = String::new(alloc);
            value.push(char::from_u32(found.unit).unwrap_or('\0'))?;
            Ok(value.into_bytes())
        }
        Kind::Byte => {
            let mut bytes = Vec::new(alloc);
            bytes.push(u8::try_from(found.unit).unwrap_or(0))?;
            Ok(bytes)
        }
        Kind::Int | Kind::Float | Kind::Bool => Ok(Vec::new(alloc)),
    }
}

impl<'t> Literal<'t> {
    pub(crate) fn parse(text: &'t str) -> Literal<'t> {
        Literal {
            text,
            found: parse_literal(text),
        }
    }

    pub(crate) fn text(&self) -> &'t str {
        self.text
    }

    pub(crate) fn kind(&self) -> Option<Kind> {
        self.found.map(|found| found.kind)
    }

    pub(crate) fn integer(&self) -> Option<u128> {
        match self.found {
            Some(found) if matches!(found.kind, Kind::Int) => Some(found.magnitude),
            _ => None,
        }
    }

    pub(crate) fn bare_integer(&self) -> Option<u128> {
        match self.found {
            Some(found) if found.body.suffix_at == self.text.len() => self.integer(),
            _ => None,
        }
    }

    pub(crate) fn plain_value(&self) -> Option<(usize, &'t str)> {
        match self.found {
            Some(found)
                if found.body.plain
                    && matches!(found.kind, Kind::Str | Kind::ByteStr | Kind::CStr) => {
                Some((found.body.lo, found.body_in(self.text)))
            }
            _ => None,
        }
    }

    pub(crate) fn value<A: Allocator + Copy>(&self, alloc: A) -> Result<Vec<u8, A>, AllocError> {
        match self.found {
            Some(found) => value_of(alloc, self.text, &found),
            None => Ok(Vec::new(alloc)),
        }
    }

    pub(crate) fn push_line<A: Allocator + Copy>(&self, alloc: A, out: &mut String<A>) -> Appended {
        push_found_line(alloc, out, self.text, self.found)
    }

    pub(crate) fn suffix(&self) -> &'t str {
        match self.found {
            Some(found) => self.text.get(found.body.suffix_at..).unwrap_or(""),
            None => "",
        }
    }
}

pub(crate) fn integers_of<A: Allocator + Copy>(
    alloc: A,
    texts: &[&str],
) -> Result<Vec<u128, A>, AllocError> {
    let mut integers = Vec::new(alloc);
    for text in texts {
        if let Some(integer) = Literal::parse(text).bare_integer() {
            integers.push(integer)?;
        }
    }
    Ok(integers)
}
