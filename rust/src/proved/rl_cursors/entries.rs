// Rendered from crates/rl_cursors/src/entries.rt by tools/render, which erases contracts: change that file, and render again.
//! Reads the next entry of a configuration, or the error at its position.

use crate::rl_cursors::next_literals::NextLiteral;
use crate::rl_cursors::settings::{is_mark, missed, take_literal, take_mark, take_name};
use crate::rl_cursors::syntax_error::{Part, SyntaxError};
use crate::rl_lexer::{Lexeme, Tokens};

#[derive(Clone, Copy)]
pub struct DottedName<'t> {
    pub text: &'t str,
    pub lo: usize,
    pub hi: usize,
}

#[derive(Clone, Copy)]
pub struct NextEntry<'t> {
    pub name: DottedName<'t>,
    pub value: NextLiteral<'t>,
}

#[derive(Clone, Copy)]
pub struct EntryRejection<'t> {
    pub name: Option<DottedName<'t>>,
    pub error: SyntaxError,
}

#[derive(Clone, Copy)]
pub enum EntryStep<'t> {
    End,
    Entry(NextEntry<'t>),
    Rejected(EntryRejection<'t>),
}

#[cfg_attr(debug_assertions, inline)]
#[cfg_attr(not(debug_assertions), inline(always))]
fn take_part<'t>(
    tokens: &mut Tokens<'t>,
    end: usize,
    hi: usize,
) -> Result<Option<Lexeme<'t>>, SyntaxError> {
    let mut ahead = tokens.fork();
    let Some(dot) = ahead.next() else {
        return Ok(None);
    };
    if !is_mark(dot.form, '.') {
        return Ok(None);
    }
    if dot.lo != hi {
        return Err(missed(tokens, end, Part::Name));
    }
    let part = take_name(&mut ahead, end)?;
    if part.lo != dot.hi {
        return Err(missed(tokens, end, Part::Name));
    }
    *tokens = ahead;
    Ok(Some(part))
}

#[inline]
fn take_dotted_name<'t>(tokens: &mut Tokens<'t>, end: usize) -> Result<DottedName<'t>, SyntaxError> {
    let rest = tokens.rest();
    let first = take_name(tokens, end)?;
    let mut hi = first.hi;
    while let Some(part) = take_part(tokens, end, hi)? {
        hi = part.hi;
    }
    Ok(DottedName {
        text: &rest[..hi - first.lo],
        lo: first.lo,
        hi,
    })
}

#[inline]
fn has_line_end(text: &str, lo: usize, tokens: &Tokens<'_>) -> bool {
    let start = text.len() - tokens.rest().len();
    match text.as_bytes()[..start].get(lo..) {
        Some(between) => between.contains(&b'\n'),
        None => false,
    }
}

#[cfg_attr(debug_assertions, inline)]
#[cfg_attr(not(debug_assertions), inline(always))]
fn pass_comma(tokens: &mut Tokens<'_>) -> bool {
    let mut ahead = tokens.fork();
    let Some(token) = ahead.next() else {
        return false;
    };
    if !is_mark(token.form, ',') {
        return false;
    }
    *tokens = ahead;
    true
}

#[cfg_attr(debug_assertions, inline)]
#[cfg_attr(not(debug_assertions), inline(always))]
fn take_separator(tokens: &mut Tokens<'_>, text: &str, hi: usize) -> Result<(), SyntaxError> {
    if pass_comma(tokens) {
        return Ok(());
    }
    if tokens.rest().is_empty() {
        return Ok(());
    }
    if has_line_end(text, hi, tokens) {
        return Ok(());
    }
    Err(missed(tokens, text.len(), Part::Comma))
}

#[inline(always)]
fn take_entry_value<'t>(tokens: &mut Tokens<'t>, text: &str) -> Result<NextLiteral<'t>, SyntaxError> {
    take_mark(tokens, text.len(), '=', Part::Equals)?;
    let value = take_literal(tokens, text.len())?;
    take_separator(tokens, text, value.token.hi)?;
    Ok(value)
}

#[cfg_attr(debug_assertions, inline)]
#[cfg_attr(not(debug_assertions), inline(always))]
fn take_entry<'t>(tokens: &mut Tokens<'t>, text: &str) -> Result<NextEntry<'t>, EntryRejection<'t>> {
    let name = match take_dotted_name(tokens, text.len()) {
        Ok(name) => name,
        Err(error) => return Err(EntryRejection { name: None, error }),
    };
    match take_entry_value(tokens, text) {
        Ok(value) => Ok(NextEntry { name, value }),
        Err(error) => {
            let name = Some(name);
            Err(EntryRejection { name, error })
        }
    }
}

#[inline]
pub fn next_config_entry<'t>(tokens: &mut Tokens<'t>, text: &str) -> EntryStep<'t> {
    if tokens.rest().is_empty() {
        return EntryStep::End;
    }
    let mut ahead = tokens.fork();
    match take_entry(&mut ahead, text) {
        Ok(entry) => {
            *tokens = ahead;
            EntryStep::Entry(entry)
        }
        Err(rejection) => EntryStep::Rejected(rejection),
    }
}
