// Rendered from crates/rl_flaws/src/walks.rt by tools/render, which erases contracts: change that file, and render again.
//! Parses the content of a quoted literal up to its first flaw or its end, from any position inside the literal.

use crate::rl_lenient::quoted_forms::{QuotedForm, split_opener};
use crate::rl_strict::LineEnds;
use crate::rl_strict::walk::{
    QuotedContent, parse_cooked_content, parse_raw_content, parse_single_unit, split_raw_opening,
};
use crate::rl_syntax::Kind;

#[derive(Clone, Copy)]
pub struct Opened<'t> {
    pub form: QuotedForm,
    pub kind: Kind,
    pub hashes: &'t str,
}

#[inline]
pub fn split_opening_delimiter(text: &str) -> Option<(Opened<'_>, &str)> {
    match split_opener(text) {
        Some((form, kind, inside)) => match form {
            QuotedForm::Raw => match split_raw_opening(kind, inside) {
                Ok((hashes, rest)) => Some((Opened { form, kind, hashes }, rest)),
                Err(_) => None,
            },
            _ => {
                let hashes = "";
                Some((Opened { form, kind, hashes }, inside))
            }
        },
        None => None,
    }
}

#[inline]
fn walk_unit(ends: LineEnds, kind: Kind, text: &str) -> QuotedContent<'_> {
    let stretch = parse_single_unit(ends, kind, text);
    let closing = stretch.closing;
    let plain = false;
    match stretch.end {
        Ok((_, suffix)) => QuotedContent {
            closing,
            plain,
            end: Ok(suffix),
        },
        Err(flaw) => QuotedContent {
            closing,
            plain,
            end: Err(flaw),
        },
    }
}

#[inline]
pub fn parse_quoted_content<'t>(
    ends: LineEnds,
    opened: Opened<'t>,
    text: &'t str,
) -> QuotedContent<'t> {
    match opened.form {
        QuotedForm::Cooked => parse_cooked_content(ends, opened.kind, text),
        QuotedForm::Single => walk_unit(ends, opened.kind, text),
        QuotedForm::Raw => parse_raw_content(ends, opened.kind, opened.hashes, text),
    }
}
