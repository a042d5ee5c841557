// Rendered from crates/rl_restyle/src/whole.rt by tools/render, which erases contracts: change that file, and render again.
//! Rewrites all literals of a source by a style.

use crate::rattle_std::prelude::{String};
use crate::rl_restyle::draft::{Draft, put_literal};
use crate::rl_restyle::edit::{Choice, RestyleError, Restyled};
use crate::rl_restyle::slices::between;
use crate::rl_style::{Restylables, Style, is_safe_to_restyle};
use crate::rattle_std::alloc::{AllocError, Allocator};

fn finished<A: Allocator>(
    source: &str,
    draft: Draft<A>,
    has_stray: bool,
) -> Result<Restyled<A>, RestyleError> {
    let mut text = draft.text;
    match text.push_str(between(source, draft.at, source.len())) {
        Ok(()) => Ok(Restyled {
            text,
            is_clean: draft.is_clean && !has_stray,
        }),
        Err(_) => Err(RestyleError::Memory),
    }
}

pub fn rewrite_source<A: Allocator + Copy>(
    alloc: A,
    style: Style,
    choice: Choice<'_>,
    text: &str,
) -> Result<Restyled<A>, RestyleError> {
    if !is_safe_to_restyle(text) {
        return Err(RestyleError::Script);
    }
    let Ok(new) = String::with_capacity(alloc, text.len()) else {
        return Err(RestyleError::Memory);
    };
    let mut literals = Restylables::new(text);
    let mut draft = Draft {
        text: new,
        at: 0,
        is_clean: true,
    };
    while let Some(literal) = literals.next() {
        match put_literal(alloc, style, choice, text, literal, &mut draft) {
            Ok(()) => {}
            Err(_) => return Err(RestyleError::Memory),
        }
    }
    match literals.error() {
        Some(error) => Err(RestyleError::Source(error)),
        None => finished(text, draft, literals.has_stray()),
    }
}
