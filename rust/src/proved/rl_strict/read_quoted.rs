// Rendered from crates/rl_strict/src/read_quoted.rt by tools/render, which erases contracts: change that file, and render again.
//! Parses a quoted literal of Rust's grammar. The result is the byte offsets of the literal's parts and its value, or its flaw.

use crate::rl_strict::flaws::{FlawAt, FlawKind, make_flaw};
use crate::rl_strict::line_ends::LineEnds;
use crate::rl_strict::read_numbers::skip_suffix;
use crate::rl_strict::strict_quoted_flaws::{begins_hash, quote_of};
use crate::rl_strict::strict_reading::Reading;
use crate::rl_strict::walk::{parse_cooked_content, parse_raw_content, parse_single_unit, split_raw_opening};
use crate::rl_lenient::Body;
use crate::rl_lenient::quoted_forms::{QuotedForm, part_offsets};
use crate::rl_lenient::units::{Piece, is_allowed_in_single_quotes, parse_char_or_escape, piece_code};
use crate::rl_syntax::Kind;
use crate::rl_syntax::text::split_char;

fn is_lone_underscore(text: &str) -> bool {
    match split_char(text) {
        Some((first, rest)) => rest.is_empty() && first == '_',
        None => false,
    }
}

#[inline(never)]
fn some_suffix_flaw<'t>(form: QuotedForm, closing: &'t str, suffix: &'t str) -> Option<FlawAt<'t>> {
    if begins_hash(form, suffix) {
        return Some(make_flaw(FlawKind::ExtraHash, suffix).with_piece(closing));
    }
    let rest = skip_suffix(suffix);
    match split_char(rest) {
        None => {
            if is_lone_underscore(suffix) {
                Some(make_flaw(FlawKind::UnderscoreSuffix, rest).with_piece(suffix))
            } else {
                None
            }
        }
        Some((c, _)) if c == quote_of(form) => {
            Some(make_flaw(FlawKind::TextAfterQuote, rest).with_piece(closing))
        }
        Some(_) => Some(make_flaw(FlawKind::BadSuffix, rest).with_piece(suffix)),
    }
}

#[inline(always)]
pub fn suffix_flaw<'t>(form: QuotedForm, closing: &'t str, suffix: &'t str) -> Option<FlawAt<'t>> {
    if suffix.is_empty() {
        return None;
    }
    some_suffix_flaw(form, closing, suffix)
}

#[inline(always)]
fn plain_of(ends: LineEnds, plain: bool) -> bool {
    match ends {
        LineEnds::Text => plain,
        LineEnds::File => false,
    }
}

#[cfg_attr(debug_assertions, inline)]
#[cfg_attr(not(debug_assertions), inline(always))]
pub(crate) fn text_at<'t>(
    ends: LineEnds,
    kind: Kind,
    text: &'t str,
    inside: &'t str,
) -> Result<Body, FlawAt<'t>> {
    let stretch = parse_cooked_content(ends, kind, inside);
    match stretch.end {
        Ok(suffix) => Ok(part_offsets(
            text,
            inside,
            stretch.closing,
            suffix,
            plain_of(ends, stretch.plain),
        )),
        Err(flaw) => Err(flaw),
    }
}

#[derive(Clone, Copy)]
pub struct Single {
    pub body: Body,
    pub unit: u32,
}

#[cfg_attr(debug_assertions, inline)]
#[cfg_attr(not(debug_assertions), inline(always))]
pub fn parse_strict_char_or_escape(kind: Kind, text: &str) -> Option<(Piece, &str)> {
    match split_char(text) {
        None => None,
        Some(('\\', _)) => parse_char_or_escape(kind, text),
        Some((first, _)) => {
            if is_allowed_in_single_quotes(first) {
                parse_char_or_escape(kind, text)
            } else {
                None
            }
        }
    }
}

#[inline(always)]
pub(crate) fn unit_at<'t>(
    ends: LineEnds,
    kind: Kind,
    text: &'t str,
    inside: &'t str,
) -> Result<Single, FlawAt<'t>> {
    let stretch = parse_single_unit(ends, kind, inside);
    match stretch.end {
        Ok((piece, suffix)) => Ok(Single {
            body: part_offsets(text, inside, stretch.closing, suffix, false),
            unit: piece_code(kind, piece),
        }),
        Err(flaw) => Err(flaw),
    }
}

fn raw_at<'t>(
    ends: LineEnds,
    kind: Kind,
    text: &'t str,
    inside: &'t str,
) -> Result<Body, FlawAt<'t>> {
    match split_raw_opening(kind, inside) {
        Ok((hashes, opened)) => {
            let stretch = parse_raw_content(ends, kind, hashes, opened);
            match stretch.end {
                Ok(suffix) => Ok(part_offsets(
                    text,
                    opened,
                    stretch.closing,
                    suffix,
                    plain_of(ends, stretch.plain),
                )),
                Err(flaw) => Err(flaw),
            }
        }
        Err(flaw) => Err(flaw),
    }
}

#[cfg_attr(debug_assertions, inline)]
#[cfg_attr(not(debug_assertions), inline(always))]
pub(crate) fn quoted_at<'t>(
    ends: LineEnds,
    form: QuotedForm,
    kind: Kind,
    text: &'t str,
    inside: &'t str,
) -> Result<Reading, FlawAt<'t>> {
    match form {
        QuotedForm::Cooked => match text_at(ends, kind, text, inside) {
            Ok(body) => Ok(Reading::Text(kind, body)),
            Err(flaw) => Err(flaw),
        },
        QuotedForm::Single => match unit_at(ends, kind, text, inside) {
            Ok(single) => Ok(Reading::Unit(kind, single.body, single.unit)),
            Err(flaw) => Err(flaw),
        },
        QuotedForm::Raw => match raw_at(ends, kind, text, inside) {
            Ok(body) => Ok(Reading::Text(kind, body)),
            Err(flaw) => Err(flaw),
        },
    }
}
