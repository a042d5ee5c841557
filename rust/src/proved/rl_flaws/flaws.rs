// Rendered from crates/rl_flaws/src/flaws.rt by tools/render, which erases contracts: change that file, and render again.
//! Iterates over all flaws in the text of a literal.

use crate::rl_flaws::closings::closing_quote;
use crate::rl_flaws::invalid_piece::{InvalidPiece, end_of, invalid_piece_with_offsets};
use crate::rl_flaws::piece_ends::{after_bad_piece, is_flaw_after_quote, is_flaw_of_unit};
use crate::rl_flaws::walks::{Opened, parse_quoted_content, split_opening_delimiter};
use crate::rl_lenient::quoted_forms::QuotedForm;
use crate::rl_strict::read_quoted::suffix_flaw;
use crate::rl_strict::{Flaw, FlawKind, LineEnds};
use crate::rl_syntax::Kind;
use crate::rl_syntax::text::{before, without_first_char};

#[derive(Clone, Copy)]
pub enum Left<'t> {
    Inside(Opened<'t>, &'t str),
    Closed(Kind, &'t str),
    Nothing,
}

#[inline]
fn left_after<'t>(
    ends: LineEnds,
    opened: Opened<'t>,
    inside: &'t str,
    flaw: FlawKind,
    piece: &'t str,
) -> Left<'t> {
    if opened.kind.is_string() && is_flaw_of_unit(flaw) {
        Left::Inside(opened, after_bad_piece(ends, opened.kind.quote(), piece))
    } else if matches!(opened.kind, Kind::Byte | Kind::Char) && !is_flaw_after_quote(flaw) {
        match closing_quote(ends, inside) {
            Some(closing) => Left::Closed(opened.kind, closing),
            None => Left::Nothing,
        }
    } else {
        Left::Nothing
    }
}

#[derive(Clone, Copy)]
pub struct NextFlaw<'t> {
    pub good: &'t str,
    pub end: usize,
    pub bad: Option<InvalidPiece>,
    pub left: Left<'t>,
}

#[inline]
pub fn next_flaw_inside<'t>(
    ends: LineEnds,
    len: usize,
    opened: Opened<'t>,
    rest: &'t str,
) -> NextFlaw<'t> {
    let stretch = parse_quoted_content(ends, opened, rest);
    let good = before(rest, stretch.closing);
    let end = len - stretch.closing.len();
    match stretch.end {
        Ok(_) => NextFlaw {
            good,
            end,
            bad: None,
            left: Left::Nothing,
        },
        Err(found) => NextFlaw {
            good,
            end,
            bad: Some(invalid_piece_with_offsets(ends, len, opened.kind.quote(), found)),
            left: left_after(ends, opened, rest, found.kind, found.piece),
        },
    }
}

#[inline]
fn judge_closed<'t>(ends: LineEnds, len: usize, kind: Kind, closing: &'t str) -> NextFlaw<'t> {
    let suffix = without_first_char(closing);
    match suffix_flaw(QuotedForm::Single, closing, suffix) {
        None => NextFlaw {
            good: "",
            end: 0,
            bad: None,
            left: Left::Nothing,
        },
        Some(found) => NextFlaw {
            good: "",
            end: 0,
            bad: Some(invalid_piece_with_offsets(ends, len, '\'', found)),
            left: Left::Nothing,
        },
    }
}

#[inline]
pub fn next_flaw<'t>(ends: LineEnds, len: usize, left: Left<'t>) -> NextFlaw<'t> {
    match left {
        Left::Inside(opened, rest) => next_flaw_inside(ends, len, opened, rest),
        Left::Closed(kind, closing) => judge_closed(ends, len, kind, closing),
        Left::Nothing => NextFlaw {
            good: "",
            end: 0,
            bad: None,
            left: Left::Nothing,
        },
    }
}

#[derive(Clone)]
pub struct Flaws<'t> {
    ends: LineEnds,
    len: usize,
    left: Left<'t>,
}

impl<'t> Flaws<'t> {
    #[inline]
    pub fn after(text: &'t str, ends: LineEnds, flaw: Flaw) -> (InvalidPiece, Flaws<'t>) {
        let len = text.len();
        match split_opening_delimiter(text) {
            Some((opened, inside)) => {
                let piece = &text[flaw.from..];
                let end = end_of(ends, len, opened.kind.quote(), flaw, piece);
                let left = left_after(ends, opened, inside, flaw.kind, piece);
                (InvalidPiece { flaw, end }, Flaws { ends, len, left })
            }
            None => {
                let left = Left::Nothing;
                (
                    InvalidPiece { flaw, end: flaw.hi },
                    Flaws { ends, len, left },
                )
            }
        }
    }

    #[inline]
    pub fn next(&mut self) -> Option<InvalidPiece> {
        let judged = next_flaw(self.ends, self.len, self.left);
        self.left = judged.left;
        judged.bad
    }
}
