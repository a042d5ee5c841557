// Rendered from crates/rl_restyle/src/value.rt by tools/render, which erases contracts: change that file, and render again.
//! Converts a literal of a configuration to the value of a rule.

use crate::rl_restyle::style_error::Expected;
use crate::rl_cursors::NextLiteral;
use crate::rl_style::{Case, Separator};
use crate::rl_syntax::Kind;

#[derive(Clone, Copy)]
pub(crate) enum Value {
    Truth(bool),
    Size(usize),
    CaseOf(Case),
    SeparatorOf(Separator),
}

fn word_of<'t>(literal: &NextLiteral<'t>) -> Option<&'t str> {
    if literal.minus_at.is_some() {
        return None;
    }
    let found = literal.found?;
    let text = literal.token.text;
    if matches!(found.kind, Kind::Str) && found.suffix_in(text).len() == 0 {
        Some(found.body_in(text))
    } else {
        None
    }
}

fn usize_of(literal: &NextLiteral<'_>) -> Option<Value> {
    if literal.minus_at.is_some() {
        return None;
    }
    let found = literal.found?;
    let suffix = found.suffix_in(literal.token.text);
    if !matches!(found.kind, Kind::Int) || !(suffix == "" || suffix == "usize") {
        return None;
    }
    match usize::try_from(found.magnitude) {
        Ok(size) => Some(Value::Size(size)),
        Err(_) => None,
    }
}

fn bool_of(text: &str) -> Option<Value> {
    match text {
        "true" => Some(Value::Truth(true)),
        "false" => Some(Value::Truth(false)),
        _ => None,
    }
}

fn case_of(word: &str) -> Option<Value> {
    match word {
        "lower" => Some(Value::CaseOf(Case::Lower)),
        "upper" => Some(Value::CaseOf(Case::Upper)),
        _ => None,
    }
}

fn separator_of(word: &str) -> Option<Value> {
    match word {
        "" => Some(Value::SeparatorOf(Separator::Nothing)),
        "_" => Some(Value::SeparatorOf(Separator::Underscore)),
        _ => None,
    }
}

pub(crate) fn value_of(expected: Expected, literal: &NextLiteral<'_>) -> Option<Value> {
    match expected {
        Expected::Truth => bool_of(literal.token.text),
        Expected::Size => usize_of(literal),
        Expected::Case => case_of(word_of(literal)?),
        Expected::Separator => separator_of(word_of(literal)?),
    }
}
