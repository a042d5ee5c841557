// Rendered from crates/rl_files/src/visible.rt by tools/render, which erases contracts: change that file, and render again.
//! Writes texts with escapes for control characters and for invisible and bidirectional characters.

use crate::rattle_std::prelude::{String};
use crate::rl_writing::is_control_invisible_or_bidi;
use crate::rattle_std::alloc::{AllocError, Allocator};

fn push_escape<A: Allocator>(out: &mut String<A>, c: char) -> Result<(), AllocError> {
    for piece in c.escape_default() {
        out.push(piece)?;
    }
    Ok(())
}

fn push_visible_char<A: Allocator>(out: &mut String<A>, c: char) -> Result<(), AllocError> {
    if is_control_invisible_or_bidi(c) {
        return push_escape(out, c);
    }
    out.push(c)?;
    Ok(())
}

fn is_printable(byte: u8) -> bool {
    byte >= b' ' && byte < 127
}

fn are_printable(bytes: &[u8]) -> bool {
    bytes.iter().all(|byte| is_printable(*byte))
}

pub fn push_visible<A: Allocator>(out: &mut String<A>, text: &str) -> Result<(), AllocError> {
    if are_printable(text.as_bytes()) {
        out.push_str(text)?;
        return Ok(());
    }
    for c in text.chars() {
        push_visible_char(out, c)?;
    }
    Ok(())
}

fn push_in_line<A: Allocator>(out: &mut String<A>, c: char) -> Result<(), AllocError> {
    if c == '\n' {
        out.push(c)?;
        return Ok(());
    }
    push_visible_char(out, c)
}

fn push_visible_lines<A: Allocator>(out: &mut String<A>, lines: &str) -> Result<(), AllocError> {
    for c in lines.chars() {
        push_in_line(out, c)?;
    }
    Ok(())
}

fn is_plain(byte: u8) -> bool {
    byte == b'\n' || is_printable(byte)
}

fn are_plain(bytes: &[u8]) -> bool {
    bytes.iter().all(|byte| is_plain(*byte))
}

pub fn make_visible<A: Allocator>(
    alloc: A,
    text: &mut String<A>,
    from: usize,
) -> Result<(), AllocError> {
    let lines = &text.as_str()[from..];
    if are_plain(lines.as_bytes()) {
        return Ok(());
    }
    let lines = String::from_str(alloc, lines)?;
    text.truncate(from);
    push_visible_lines(text, lines.as_str())
}

pub fn visible_text<A: Allocator>(alloc: A, text: &str) -> Result<String<A>, AllocError> {
    let mut shown = String::new(alloc);
    push_visible(&mut shown, text)?;
    Ok(shown)
}
