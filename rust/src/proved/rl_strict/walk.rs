// Rendered from crates/rl_strict/src/walk.rt by tools/render, which erases contracts: change that file, and render again.
//! Parses a quoted literal of Rust's grammar in one pass, in a separate text or in a file. The result is the range of its valid
//! content and its suffix, or its flaw.

use crate::rl_strict::flaws::{FlawAt, FlawKind, flaw_at_end_or_before, make_flaw};
use crate::rl_strict::line_ends::LineEnds;
use crate::rl_strict::read_quoted::{parse_strict_char_or_escape, suffix_flaw};
use crate::rl_strict::strict::{after_closer, is_raw_character, skip_raw_characters};
use crate::rl_strict::strict_quoted_flaws::{raw_character_flaw, unit_flaw};
use crate::rl_strict::walk_units::{skip_units, split_first_char};
use crate::rl_lenient::quoted_forms::{QuotedForm, strip_quote};
use crate::rl_lenient::units::{Piece, split_plain};
use crate::rl_syntax::Kind;
use crate::rl_syntax::text::{before, split_char};

#[derive(Clone, Copy)]
pub struct QuotedContent<'t> {
    pub closing: &'t str,
    pub plain: bool,
    pub end: Result<&'t str, FlawAt<'t>>,
}

#[cfg_attr(debug_assertions, inline)]
#[cfg_attr(not(debug_assertions), inline(always))]
pub fn parse_cooked_content(ends: LineEnds, kind: Kind, text: &str) -> QuotedContent<'_> {
    let (_, following) = split_plain(kind, text);
    if let Some(suffix) = strip_quote(Kind::Str, following) {
        return match suffix_flaw(QuotedForm::Cooked, following, suffix) {
            None => QuotedContent {
                closing: following,
                plain: true,
                end: Ok(suffix),
            },
            Some(flaw) => QuotedContent {
                closing: following,
                plain: true,
                end: Err(flaw),
            },
        };
    }
    let closing = skip_units(ends, kind, following);
    match strip_quote(Kind::Str, closing) {
        Some(suffix) => match suffix_flaw(QuotedForm::Cooked, closing, suffix) {
            None => QuotedContent {
                closing,
                plain: false,
                end: Ok(suffix),
            },
            Some(flaw) => QuotedContent {
                closing,
                plain: false,
                end: Err(flaw),
            },
        },
        None => QuotedContent {
            closing,
            plain: false,
            end: Err(unit_flaw(kind, closing).with_piece(closing)),
        },
    }
}

#[derive(Clone, Copy)]
pub struct UnitStretch<'t> {
    pub closing: &'t str,
    pub end: Result<(Piece, &'t str), FlawAt<'t>>,
}

#[cfg_attr(debug_assertions, inline)]
#[cfg_attr(not(debug_assertions), inline(always))]
pub fn parse_single_unit(ends: LineEnds, kind: Kind, text: &str) -> UnitStretch<'_> {
    let Some((unit, closing)) = parse_strict_char_or_escape(kind, text) else {
        return UnitStretch {
            closing: text,
            end: Err(unit_flaw(kind, text).with_piece(text)),
        };
    };
    match strip_quote(Kind::Char, closing) {
        Some(suffix) => match suffix_flaw(QuotedForm::Single, closing, suffix) {
            None => UnitStretch {
                closing,
                end: Ok((unit, suffix)),
            },
            Some(flaw) => UnitStretch {
                closing,
                end: Err(flaw),
            },
        },
        None => UnitStretch {
            closing: text,
            end: Err(flaw_at_end_or_before(
                FlawKind::Unclosed,
                FlawKind::TwoCharacters,
                closing,
            ).with_piece(text)),
        },
    }
}

#[cfg_attr(debug_assertions, inline)]
#[cfg_attr(not(debug_assertions), inline(always))]
pub fn parse_raw_content<'t>(
    ends: LineEnds,
    kind: Kind,
    hashes: &str,
    text: &'t str,
) -> QuotedContent<'t> {
    let plain = true;
    let mut closing = skip_raw_characters(kind, text);
    while let Some((c, after)) = split_first_char(ends, closing) {
        if let Some(suffix) = after_closer(hashes, c, after) {
            return match suffix_flaw(QuotedForm::Raw, closing, suffix) {
                None => QuotedContent {
                    closing,
                    plain,
                    end: Ok(suffix),
                },
                Some(flaw) => QuotedContent {
                    closing,
                    plain,
                    end: Err(flaw),
                },
            };
        }
        if !is_raw_character(kind, c) {
            return QuotedContent {
                closing,
                plain,
                end: Err(make_flaw(raw_character_flaw(kind, c), closing)),
            };
        }
        closing = skip_raw_characters(kind, after);
    }
    QuotedContent {
        closing,
        plain,
        end: Err(make_flaw(FlawKind::Unclosed, closing)),
    }
}

#[cfg_attr(debug_assertions, inline)]
#[cfg_attr(not(debug_assertions), inline(always))]
pub fn split_raw_opening(kind: Kind, inside: &str) -> Result<(&str, &str), FlawAt<'_>> {
    let mut rest = inside;
    let mut count = 0_u32;
    while let Some((first, after)) = split_char(rest) {
        if first == '"' {
            return Ok((before(inside, rest), after));
        }
        if first != '#' {
            return Err(make_flaw(FlawKind::NoQuote, rest));
        }
        if count == 255 {
            return Err(make_flaw(FlawKind::TooManyHashes, rest).with_piece(inside));
        }
        rest = after;
        count += 1;
    }
    Err(make_flaw(FlawKind::UnexpectedEnd, rest))
}
