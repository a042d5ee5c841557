// Rendered from crates/rl_attributes/src/attributes/whole.rt by tools/render, which erases contracts: change that file, and render again.
//! The function that reads the list of attributes of a text. The function lexes the text token by token, and doesn't
//! build token trees unless there is an error.

use crate::rattle_std::prelude::{String, Vec};
use super::name::Name;
use super::{Attrs, Entry};
use crate::rl_cursors::{NextLiteral, NextSetting, SettingStep, first_error, next_setting};
use crate::rl_tokens::{Error, Literal, Span, Tokens, parse_all};
use crate::rust_literals::Lit;
use crate::rattle_std::alloc::{AllocError, Allocator};
use crate::rattle_std::collections::BTreeSet;

fn literal_of<A: Allocator + Copy>(
    alloc: A,
    next: NextLiteral<'_>,
    file: u32,
) -> Result<Lit<A>, AllocError> {
    let token = next.token;
    let made = match next.minus_at {
        Some(lo) => Literal::negative(alloc, token.text, Span::new(file, lo, token.hi)),
        None => Literal::from_text(alloc, token.text, Span::new(file, token.lo, token.hi)),
    };
    let Ok(made) = made else {
        return Err(AllocError);
    };
    match Lit::new(alloc, made) {
        Ok(literal) => Ok(literal),
        Err(_) => Err(AllocError),
    }
}

fn entry_of<A: Allocator + Copy>(
    alloc: A,
    next: NextSetting<'_>,
    file: u32,
) -> Result<Entry<A>, AllocError> {
    let name = String::from_str(alloc, next.name.text)?;
    let value = literal_of(alloc, next.value, file)?;
    Ok(Entry {
        name,
        span: Span::new(file, next.name.lo, next.name.hi),
        value,
    })
}

fn add_name<'a, A: Allocator + Copy>(names: &mut BTreeSet<Name<'a>, A>, name: &'a str) -> bool {
    match names.insert(Name::new(name)) {
        Ok(true) => true,
        _ => false,
    }
}

fn read_flat<A: Allocator + Copy>(alloc: A, text: &str, file: u32) -> Option<Attrs<A>> {
    let mut tokens = Tokens::new(text);
    let mut names = BTreeSet::new(alloc);
    let mut entries = Vec::new(alloc);
    while !tokens.rest().is_empty() {
        let SettingStep::Setting(next) = next_setting(&mut tokens, text.len()) else {
            return None;
        };
        if !add_name(&mut names, next.name.text) {
            return None;
        }
        let Ok(entry) = entry_of(alloc, next, file) else {
            return None;
        };
        if let Err(failed) = entries.push(entry) {
            drop(failed);
            return None;
        }
    }
    Some(Attrs {
        entries,
        end: Span::new(file, text.len(), text.len()),
    })
}

fn read_trees<A: Allocator + Copy>(alloc: A, text: &str, file: u32) -> Result<Attrs<A>, Error<A>> {
    match first_error(text) {
        Some(error) => {
            let at = Span::new(file, error.at, error.at);
            Err(Error::of_lexer(error.kind, at))
        }
        None => parse_all::<Attrs<A>, A>(alloc, text, file),
    }
}

pub fn read<A: Allocator + Copy>(alloc: A, text: &str, file: u32) -> Result<Attrs<A>, Error<A>> {
    match read_flat(alloc, text, file) {
        Some(attrs) => Ok(attrs),
        None => read_trees(alloc, text, file),
    }
}
