// Rendered from crates/rl_tokens/src/writer.rt by tools/render, which erases contracts: change that file, and render again.
//! Functions that write a value as a literal: a string, bytes, or a character.

use crate::rattle_std::prelude::{String};
use crate::rl_tokens::c_string::CString;
use crate::rl_tokens::error::Error;
use crate::rl_tokens::literal::Literal;
use crate::rl_syntax::written_unit::escape;
use crate::rl_syntax::{Kind, Span};
use crate::rattle_std::alloc::{AllocError, Allocator};

fn push_written<A: Allocator>(out: &mut String<A>, kind: Kind, c: char) -> Result<(), AllocError> {
    match escape(kind, c, &mut [0; 4]) {
        Some(text) => out.push_str(text),
        None => out.push(c),
    }
}

fn push_characters<A: Allocator>(
    out: &mut String<A>,
    kind: Kind,
    value: &str,
) -> Result<(), AllocError> {
    out.push_str(kind.opener())?;
    for c in value.chars() {
        push_written(out, kind, c)?;
    }
    out.push(kind.quote())?;
    Ok(())
}

pub fn push_str_literal<A: Allocator>(out: &mut String<A>, value: &str) -> Result<(), AllocError> {
    let len = out.as_str().len();
    match push_characters(out, Kind::Str, value) {
        Ok(()) => Ok(()),
        Err(error) => {
            out.truncate(len);
            Err(error)
        }
    }
}

fn push_str_line<A: Allocator>(out: &mut String<A>, value: &str) -> Result<(), AllocError> {
    push_str_literal(out, value)?;
    out.push('\n')?;
    Ok(())
}

pub fn write_str_list<A: Allocator, B: Allocator>(
    alloc: A,
    values: &[String<B>],
) -> Result<String<A>, AllocError> {
    let mut text = String::new(alloc);
    for value in values {
        push_str_line(&mut text, value.as_str())?;
    }
    Ok(text)
}

fn text_of_characters<A: Allocator>(
    alloc: A,
    kind: Kind,
    value: &str,
) -> Result<String<A>, AllocError> {
    let mut text = String::new(alloc);
    push_characters(&mut text, kind, value)?;
    Ok(text)
}

fn text_of_bytes<A: Allocator>(alloc: A, kind: Kind, value: &[u8]) -> Result<String<A>, AllocError> {
    let mut text = String::from_str(alloc, kind.opener())?;
    for byte in value {
        push_written(&mut text, kind, char::from(*byte))?;
    }
    text.push(kind.quote())?;
    Ok(text)
}

fn token<A: Allocator>(text: Result<String<A>, AllocError>) -> Result<Literal<A>, Error<A>> {
    match text {
        Ok(text) => Ok(Literal::of_string(text, Span::call_site())),
        Err(_) => Err(Error::out_of_memory(Span::call_site())),
    }
}

impl<A: Allocator> Literal<A> {
    pub fn string(alloc: A, value: &str) -> Result<Literal<A>, Error<A>> {
        token(text_of_characters(alloc, Kind::Str, value))
    }

    pub fn byte_string(alloc: A, value: &[u8]) -> Result<Literal<A>, Error<A>> {
        token(text_of_bytes(alloc, Kind::ByteStr, value))
    }

    pub fn c_string<B: Allocator>(alloc: A, value: &CString<B>) -> Result<Literal<A>, Error<A>> {
        token(text_of_bytes(alloc, Kind::CStr, value.as_bytes()))
    }

    pub fn byte_character(alloc: A, value: u8) -> Result<Literal<A>, Error<A>> {
        token(text_of_bytes(alloc, Kind::Byte, &[value]))
    }

    pub fn character(alloc: A, value: char) -> Result<Literal<A>, Error<A>> {
        let mut room = [0; 4];
        token(text_of_characters(alloc, Kind::Char, value.encode_utf8(&mut room)))
    }
}
