// Rendered from crates/rl_fronts/src/contents.rt by tools/render, which erases contracts: change that file, and render again.
//! Functions that return the decoded values of string, byte string and C string literals as new strings or vectors.

use crate::rattle_std::prelude::{String, Vec, vec};
use crate::rl_lenient::contents::decode_string_content_into;
use crate::rl_lenient::found::parse_known_literal;
use crate::rl_tokens::{Error, Kind};
use crate::rattle_std::alloc::{AllocError, Allocator};

fn decode<A: Allocator>(alloc: A, kind: Kind, text: &str) -> Result<Vec<u8, A>, AllocError> {
    let mut bytes = vec![in alloc; 0; text.len()]?;
    let len = decode_string_content_into(kind, text, bytes.as_mut_slice());
    bytes.truncate(len);
    Ok(bytes)
}

fn body_bytes<A: Allocator>(
    alloc: A,
    kind: Kind,
    body: &str,
    plain: bool,
) -> Result<Vec<u8, A>, AllocError> {
    if plain {
        Vec::from_slice(alloc, body.as_bytes())
    } else {
        decode(alloc, kind, body)
    }
}

pub fn str_of<A: Allocator>(alloc: A, text: &str) -> Result<String<A>, Error<A>> {
    let found = parse_known_literal(text);
    str_of_body(alloc, found.body_in(text), found.body.plain)
}

pub fn bytes_of<A: Allocator>(alloc: A, text: &str) -> Result<Vec<u8, A>, Error<A>> {
    let found = parse_known_literal(text);
    bytes_of_body(alloc, found.kind, found.body_in(text), found.body.plain)
}

pub fn str_of_body<A: Allocator>(alloc: A, body: &str, plain: bool) -> Result<String<A>, Error<A>> {
    let value = body_bytes(alloc, Kind::Str, body, plain)?;
    Ok(String::from_utf8_unchecked(value))
}

pub fn bytes_of_body<A: Allocator>(
    alloc: A,
    kind: Kind,
    body: &str,
    plain: bool,
) -> Result<Vec<u8, A>, Error<A>> {
    Ok(body_bytes(alloc, kind, body, plain)?)
}
