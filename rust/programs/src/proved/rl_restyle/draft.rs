// Rendered from crates/rl_restyle/src/draft.rt by tools/render, which erases contracts: change that file, and render again.
//! The new text of a source while it is being written.

use crate::rattle_std::prelude::{String};
use crate::rl_restyle::clean::clean_after;
use crate::rl_restyle::edit::Choice;
use crate::rl_restyle::slices::between;
use crate::rl_restyle::texts::text_of;
use crate::rl_style::{Restylable, Style};
use crate::rattle_std::alloc::{AllocError, Allocator};

pub(crate) struct Draft<A: Allocator> {
    pub(crate) text: String<A>,
    pub(crate) at: usize,
    pub(crate) is_clean: bool,
}

fn put<A: Allocator>(
    draft: &mut Draft<A>,
    source: &str,
    literal: Restylable<'_>,
    new: &str,
) -> Result<(), AllocError> {
    draft
        .text
        .push_str(between(source, draft.at, literal.token.lo))?;
    draft.text.push_str(new)?;
    draft.at = literal.token.hi;
    Ok(())
}

pub(crate) fn put_literal<A: Allocator + Copy>(
    alloc: A,
    style: Style,
    choice: Choice<'_>,
    source: &str,
    literal: Restylable<'_>,
    draft: &mut Draft<A>,
) -> Result<(), AllocError> {
    draft.is_clean = clean_after(draft.is_clean, source, literal);
    let new = text_of(alloc, style, choice, source, literal)?;
    match new {
        Some(new) => put(draft, source, literal, new.as_str()),
        None => Ok(()),
    }
}
