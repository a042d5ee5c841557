// Rendered from crates/rl_program/src/lit_line.rt by tools/render, which erases contracts: change that file, and render again.
//! Writes the output line of a `Lit`.

use crate::rattle_std::prelude::{String};
use crate::rl_program::found_line::{bool_word, push_found_line};
use crate::rl_program::line::{push_line_of_kind, push_verbatim_line};
use crate::rl_quoted::{Quoted, QuotedKind};
use crate::rl_tokens::Kind;
use crate::rust_literals::Lit;
use crate::rattle_std::alloc::{AllocError, Allocator};

fn push_quoted_literal<K: QuotedKind, A: Allocator + Copy>(
    alloc: A,
    out: &mut String<A>,
    literal: &Quoted<K, A>,
) -> Result<(), AllocError> {
    push_found_line(alloc, out, literal.text(), Some(literal.found()))
}

pub fn push_literal_line<A: Allocator + Copy>(
    alloc: A,
    out: &mut String<A>,
    literal: &Lit<A>,
) -> Result<(), AllocError> {
    match literal {
        Lit::Str(literal) => push_quoted_literal(alloc, out, literal),
        Lit::ByteStr(literal) => push_quoted_literal(alloc, out, literal),
        Lit::CStr(literal) => push_quoted_literal(alloc, out, literal),
        Lit::Byte(literal) => push_quoted_literal(alloc, out, literal),
        Lit::Char(literal) => push_quoted_literal(alloc, out, literal),
        Lit::Int(number) => push_line_of_kind(
            out,
            Kind::Int,
            number.base10_digits(),
            number.suffix(),
        ),
        Lit::Float(number) => push_line_of_kind(
            out,
            Kind::Float,
            number.base10_digits(),
            number.suffix(),
        ),
        Lit::Bool(truth) => push_line_of_kind(out, Kind::Bool, bool_word(truth.value()), ""),
        Lit::Verbatim(token) => push_verbatim_line(out, token.text()),
    }
}

pub fn output_line<A: Allocator + Copy>(alloc: A, literal: &Lit<A>) -> Result<String<A>, AllocError> {
    let mut line = String::new(alloc);
    push_literal_line(alloc, &mut line, literal)?;
    Ok(line)
}
