// Rendered from crates/rl_restyle/src/texts.rt by tools/render, which erases contracts: change that file, and render again.
//! Creates the new text of a literal in a style.

use crate::rattle_std::prelude::{String, Vec, vec};
use crate::rl_restyle::edit::{Choice, Macros};
use crate::rl_restyle::slices::between;
use crate::rl_lenient::parse_literal;
use crate::rl_style::{Restylable, Style, growth, rewrite_within};
use crate::rl_syntax::Kind;
use crate::rattle_std::alloc::{AllocError, Allocator};

pub(crate) const SHORT: usize = 256;

pub(crate) fn buffer_len(style: Style, text: &str) -> Result<usize, AllocError> {
    let Some(most) = text.len().checked_mul(growth(style, text)) else {
        return Err(AllocError);
    };
    match most.checked_add(1) {
        Some(room) => Ok(room),
        None => Err(AllocError),
    }
}

fn other_text<A: Allocator>(alloc: A, old: &str, new: &str) -> Result<Option<String<A>>, AllocError> {
    if new == old {
        return Ok(None);
    }
    let mut made = String::new(alloc);
    made.push_str(new)?;
    Ok(Some(made))
}

fn new_text_in<A: Allocator>(
    alloc: A,
    style: Style,
    front: &str,
    text: &str,
    out: &mut [u8],
) -> Result<Option<String<A>>, AllocError> {
    let Ok(len) = rewrite_within(front, text, style, out) else {
        return Ok(None);
    };
    match crate::rattle_std::str::from_utf8(&out[..len]) {
        Ok(new) => other_text(alloc, text, new),
        Err(_) => unreachable!(),
    }
}

fn long_text<A: Allocator>(
    style: Style,
    front: &str,
    text: &str,
    mut bytes: Vec<u8, A>,
) -> Option<String<A>> {
    let Ok(len) = rewrite_within(front, text, style, bytes.as_mut_slice()) else {
        return None;
    };
    bytes.truncate(len);
    let new = String::from_utf8_unchecked(bytes);
    if new.as_str() == text {
        None
    } else {
        Some(new)
    }
}

pub(crate) fn new_text<A: Allocator + Copy>(
    alloc: A,
    style: Style,
    front: &str,
    text: &str,
) -> Result<Option<String<A>>, AllocError> {
    let room = buffer_len(style, text)?;
    if room <= SHORT {
        return new_text_in(alloc, style, front, text, &mut [0; SHORT]);
    }
    Ok(long_text(style, front, text, vec![in alloc; 0; room]?))
}

fn is_rewritable(macros: Macros, literal: Restylable<'_>) -> bool {
    match macros {
        Macros::Skip => !literal.is_field && !literal.in_macro,
        Macros::All => !literal.is_field,
    }
}

fn kind_of(text: &str) -> Option<Kind> {
    match parse_literal(text) {
        Some(found) => Some(found.kind),
        None => None,
    }
}

fn is_of_kinds(kinds: Option<&[Option<Kind>]>, text: &str) -> bool {
    match kinds {
        Some(kinds) => kinds.contains(&kind_of(text)),
        None => true,
    }
}

fn is_chosen(choice: Choice<'_>, literal: Restylable<'_>) -> bool {
    is_rewritable(choice.macros, literal) && is_of_kinds(choice.kinds, literal.token.text)
}

pub(crate) fn text_of<A: Allocator + Copy>(
    alloc: A,
    style: Style,
    choice: Choice<'_>,
    source: &str,
    literal: Restylable<'_>,
) -> Result<Option<String<A>>, AllocError> {
    if !is_chosen(choice, literal) {
        return Ok(None);
    }
    new_text(
        alloc,
        style,
        between(source, 0, literal.token.lo),
        literal.token.text,
    )
}
