// Rendered from crates/rl_program/src/found_line.rt by tools/render, which erases contracts: change that file, and render again.
//! Writes the output line of a literal from its parse result, without a `Lit` and without a copy of the text.

use crate::rattle_std::prelude::{String};
use crate::rl_program::line::{push_line_of_kind, push_text, push_verbatim_line};
use crate::rl_fronts::{bytes_of_body, digits_of_found, str_of_body};
use crate::rl_lenient::Found;
use crate::rl_tokens::{CString, Error, Kind, Literal};
use crate::rattle_std::alloc::{AllocError, Allocator};

fn push_shown<A: Allocator>(
    out: &mut String<A>,
    kind: Kind,
    text: &str,
    shown: &str,
    suffix: &str,
) -> Result<(), AllocError> {
    push_line_of_kind(out, kind, shown, suffix)
}

fn push_written<A: Allocator>(
    out: &mut String<A>,
    kind: Kind,
    text: &str,
    written: Result<Literal<A>, Error<A>>,
    suffix: &str,
) -> Result<(), AllocError> {
    match written {
        Ok(shown) => push_shown(out, kind, text, shown.text(), suffix),
        Err(_) => Err(AllocError),
    }
}

fn push_string<A: Allocator>(
    alloc: A,
    out: &mut String<A>,
    text: &str,
    found: &Found,
    suffix: &str,
) -> Result<(), AllocError> {
    let body = found.body_in(text);
    if found.body.plain {
        return push_text(out, body, suffix);
    }
    match str_of_body(alloc, body, found.body.plain) {
        Ok(value) => push_text(out, value.as_str(), suffix),
        Err(_) => Err(AllocError),
    }
}

fn written_byte_string<A: Allocator + Copy>(
    alloc: A,
    text: &str,
    found: &Found,
) -> Result<Literal<A>, Error<A>> {
    let body = found.body_in(text);
    if found.body.plain {
        return Literal::byte_string(alloc, body.as_bytes());
    }
    let value = bytes_of_body(alloc, found.kind, body, found.body.plain)?;
    Literal::byte_string(alloc, value.as_slice())
}

fn written_c_string<A: Allocator + Copy>(
    alloc: A,
    text: &str,
    found: &Found,
) -> Result<Literal<A>, Error<A>> {
    let value = bytes_of_body(alloc, found.kind, found.body_in(text), found.body.plain)?;
    Literal::c_string(alloc, &CString::new(value).unwrap())
}

fn push_number<A: Allocator>(
    alloc: A,
    out: &mut String<A>,
    text: &str,
    found: &Found,
    suffix: &str,
) -> Result<(), AllocError> {
    if found.body.plain {
        return push_shown(out, found.kind, text, found.body_in(text), suffix);
    }
    match digits_of_found(alloc, text, *found) {
        Ok(digits) => push_shown(out, found.kind, text, digits.as_str(), suffix),
        Err(_) => Err(AllocError),
    }
}

pub fn bool_word(value: bool) -> &'static str {
    if value { "true" } else { "false" }
}

fn push_read<A: Allocator + Copy>(
    alloc: A,
    out: &mut String<A>,
    text: &str,
    found: &Found,
    suffix: &str,
) -> Result<(), AllocError> {
    match found.kind {
        Kind::Str => push_string(alloc, out, text, found, suffix),
        Kind::ByteStr => {
            let written = written_byte_string(alloc, text, found);
            push_written(out, found.kind, text, written, suffix)
        }
        Kind::CStr => {
            let written = written_c_string(alloc, text, found);
            push_written(out, found.kind, text, written, suffix)
        }
        Kind::Byte => {
            let written = Literal::byte_character(alloc, found.unit as u8);
            push_written(out, found.kind, text, written, suffix)
        }
        Kind::Char => {
            let written = Literal::character(alloc, char::from_u32(found.unit).unwrap());
            push_written(out, found.kind, text, written, suffix)
        }
        Kind::Int | Kind::Float => push_number(alloc, out, text, found, suffix),
        Kind::Bool => push_shown(out, found.kind, text, bool_word(found.truth), suffix),
    }
}

pub fn push_found_line<A: Allocator + Copy>(
    alloc: A,
    out: &mut String<A>,
    text: &str,
    found: Option<Found>,
) -> Result<(), AllocError> {
    match found {
        Some(found) => push_read(alloc, out, text, &found, found.suffix_in(text)),
        None => push_verbatim_line(out, text),
    }
}
