// Rendered from crates/rl_strict/src/strict_quoted_flaws.rt by tools/render, which erases contracts: change that file, and render again.
//! The flaws of quoted literals: invalid characters and escapes, and invalid text after the closing quote.

use crate::rl_strict::flaws::{FlawAt, FlawKind, make_flaw};
use crate::rl_strict::quoted_flaws::{character_flaw, escape_flaw};
use crate::rl_lenient::quoted_forms::QuotedForm;
use crate::rl_syntax::Kind;
use crate::rl_syntax::text::split_char;

pub(crate) fn quote_of(form: QuotedForm) -> char {
    match form {
        QuotedForm::Single => '\'',
        _ => '"',
    }
}

pub(crate) fn begins_hash(form: QuotedForm, text: &str) -> bool {
    match form {
        QuotedForm::Raw => matches!(split_char(text), Some(('#', _))),
        _ => false,
    }
}

pub fn unit_flaw(kind: Kind, text: &str) -> FlawAt<'_> {
    match split_char(text) {
        None => make_flaw(FlawKind::Unclosed, text),
        Some(('\\', rest)) => match split_char(rest) {
            Some(('\r', _)) if kind.is_string() => make_flaw(FlawKind::CarriageReturn, rest),
            _ => escape_flaw(kind, rest),
        },
        Some(('\r', _)) if kind.is_string() => make_flaw(FlawKind::CarriageReturn, text),
        Some((first, _)) => make_flaw(character_flaw(first), text),
    }
}

pub fn raw_character_flaw(kind: Kind, c: char) -> FlawKind {
    match c {
        '\r' => FlawKind::CarriageReturn,
        _ => match kind {
            Kind::CStr => FlawKind::Nul,
            _ => FlawKind::NotAscii,
        },
    }
}
