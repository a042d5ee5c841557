// Rendered from crates/rl_restyle/src/styles.rt by tools/render, which erases contracts: change that file, and render again.
//! Parses the configuration of a style.

use crate::rl_restyle::rule::{expected_of, rule_of};
use crate::rl_restyle::style_error::{StyleError, StyleErrorKind};
use crate::rl_restyle::value::value_of;
use crate::rl_restyle::values::Values;
use crate::rl_cursors::{
    DottedName, EntryRejection, EntryStep, NextEntry, NextLiteral, next_config_entry,
};
use crate::rl_lexer::Tokens;
use crate::rl_style::{Case, Style};

fn at_name(kind: StyleErrorKind, name: DottedName<'_>) -> StyleError<'_> {
    StyleError {
        kind,
        name: Some(name.text),
        lo: name.lo,
        hi: name.hi,
    }
}

fn literal_start(literal: &NextLiteral<'_>) -> usize {
    match literal.minus_at {
        Some(at) => at,
        None => literal.token.lo,
    }
}

fn set_entry<'t>(values: &mut Values, entry: &NextEntry<'t>) -> Result<(), StyleError<'t>> {
    let Some(rule) = rule_of(entry.name.text) else {
        return Err(at_name(StyleErrorKind::Unknown, entry.name));
    };
    if values.get(rule).is_some() {
        return Err(at_name(StyleErrorKind::Repeated, entry.name));
    }
    let expected = expected_of(rule);
    let Some(value) = value_of(expected, &entry.value) else {
        return Err(StyleError {
            kind: StyleErrorKind::Expected(expected),
            name: Some(entry.name.text),
            lo: literal_start(&entry.value),
            hi: entry.value.token.hi,
        });
    };
    values.set(rule, value);
    Ok(())
}

fn is_set(values: &Values, name: &str) -> bool {
    match rule_of(name) {
        Some(rule) => values.get(rule).is_some(),
        None => false,
    }
}

fn text_of(name: Option<DottedName<'_>>) -> Option<&str> {
    match name {
        Some(name) => Some(name.text),
        None => None,
    }
}

fn rejection_error<'t>(values: &Values, rejection: EntryRejection<'t>) -> StyleError<'t> {
    if let Some(name) = rejection.name {
        if is_set(values, name.text) {
            return at_name(StyleErrorKind::Repeated, name);
        }
    }
    StyleError {
        kind: StyleErrorKind::Syntax(rejection.error.kind),
        name: text_of(rejection.name),
        lo: rejection.error.lo,
        hi: rejection.error.hi,
    }
}

pub fn parse_style(text: &str) -> Result<Style, StyleError<'_>> {
    let mut tokens = Tokens::new(text);
    let mut values = Values::new();
    loop {
        match next_config_entry(&mut tokens, text) {
            EntryStep::End => return Ok(values.style()),
            EntryStep::Entry(entry) => match set_entry(&mut values, &entry) {
                Ok(()) => {}
                Err(error) => return Err(error),
            },
            EntryStep::Rejected(rejection) => return Err(rejection_error(&values, rejection)),
        }
    }
}

pub fn default_style() -> Style {
    Style {
        exponent_letter: Some(Case::Lower),
        quote_escapes: true,
        raw_hashes: true,
        ..Style::KEEP
    }
}
