// Rendered from crates/rl_program/src/line.rt by tools/render, which erases contracts: change that file, and render again.
//! Writes output lines. A line has a label, a value and a suffix, with a space between.

use crate::rattle_std::prelude::{String};
use crate::rl_syntax::text::strip_byte;
use crate::rl_tokens::ident::xid_ok;
use crate::rl_tokens::{Kind, push_str_literal};
use crate::rattle_std::alloc::{AllocError, Allocator};

#[inline(always)]
pub(crate) fn push<A: Allocator>(out: &mut String<A>, piece: &str) -> Result<(), AllocError> {
    out.push_str(piece)?;
    Ok(())
}

fn is_bare(byte: u8) -> bool {
    byte >= b' ' && byte < 127 && byte != b'"' && byte != b'\\'
}

pub fn need_no_escapes(bytes: &[u8]) -> bool {
    bytes.iter().all(|byte| is_bare(*byte))
}

fn push_suffix<A: Allocator>(out: &mut String<A>, suffix: &str) -> Result<(), AllocError> {
    if xid_ok(suffix) {
        push(out, suffix)
    } else {
        push_str_literal(out, suffix)
    }
}

fn push_end<A: Allocator>(out: &mut String<A>, suffix: &str) -> Result<(), AllocError> {
    if suffix.is_empty() {
        return push(out, " -\n");
    }
    push(out, " ")?;
    push_suffix(out, suffix)?;
    push(out, "\n")
}

fn push_line<A: Allocator>(
    out: &mut String<A>,
    word: &str,
    shown: &str,
    suffix: &str,
) -> Result<(), AllocError> {
    push(out, word)?;
    push(out, " ")?;
    push(out, shown)?;
    push_end(out, suffix)
}

fn push_quoted<A: Allocator>(
    out: &mut String<A>,
    word: &str,
    text: &str,
    suffix: &str,
) -> Result<(), AllocError> {
    push(out, word)?;
    push(out, " ")?;
    push_str_literal(out, text)?;
    push_end(out, suffix)
}

fn word(kind: Kind) -> &'static str {
    match kind {
        Kind::Str => "Str",
        Kind::ByteStr => "ByteStr",
        Kind::CStr => "CStr",
        Kind::Byte => "Byte",
        Kind::Char => "Char",
        Kind::Int => "Int",
        Kind::Float => "Float",
        Kind::Bool => "Bool",
    }
}

pub fn label_of(kind: Option<Kind>) -> &'static str {
    match kind {
        Some(kind) => word(kind),
        None => "Verbatim",
    }
}

pub fn push_line_of_kind<A: Allocator>(
    out: &mut String<A>,
    kind: Kind,
    shown: &str,
    suffix: &str,
) -> Result<(), AllocError> {
    push_line(out, word(kind), shown, suffix)
}

#[inline(always)]
pub fn unescaped_value(text: &str) -> Option<&str> {
    let value = strip_byte(text, b'"')?.strip_suffix("\"")?;
    if need_no_escapes(value.as_bytes()) {
        Some(value)
    } else {
        None
    }
}

const FRONT: &str = "Str \"";

const END: &str = "\" -\n";

#[inline(never)]
pub fn push_unescaped_line<A: Allocator>(out: &mut String<A>, value: &str) -> Result<(), AllocError> {
    push(out, FRONT)?;
    push(out, value)?;
    push(out, END)
}

pub(crate) fn push_text<A: Allocator>(
    out: &mut String<A>,
    value: &str,
    suffix: &str,
) -> Result<(), AllocError> {
    if suffix.is_empty() && need_no_escapes(value.as_bytes()) {
        return push_unescaped_line(out, value);
    }
    push_quoted(out, word(Kind::Str), value, suffix)
}

pub fn push_verbatim_line<A: Allocator>(out: &mut String<A>, text: &str) -> Result<(), AllocError> {
    push_quoted(out, "Verbatim", text, "")
}
