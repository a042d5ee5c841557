// Rendered from crates/rl_flaws/src/pieces.rt by tools/render, which erases contracts: change that file, and render again.
//! Splits a quoted literal into its valid segments and its invalid pieces.

use crate::rl_flaws::flaws::{Left, next_flaw, next_flaw_inside};
use crate::rl_flaws::invalid_piece::InvalidPiece;
use crate::rl_flaws::walks::split_opening_delimiter;
use crate::rl_cursors::{Segment, split_segment};
use crate::rl_lenient::quoted_forms::QuotedForm;
use crate::rl_strict::LineEnds;
use crate::rl_syntax::Kind;

#[derive(Clone, Copy)]
pub enum Piece<'t> {
    Good(Segment<'t>),
    Bad(InvalidPiece),
}

#[inline]
fn is_raw(form: QuotedForm) -> bool {
    matches!(form, QuotedForm::Raw)
}

#[derive(Clone)]
pub struct Pieces<'t> {
    ends: LineEnds,
    kind: Kind,
    plain: bool,
    end: usize,
    good: &'t str,
    bad: Option<InvalidPiece>,
    len: usize,
    left: Left<'t>,
}

impl<'t> Pieces<'t> {
    #[inline]
    pub fn of(text: &'t str, ends: LineEnds) -> Option<Pieces<'t>> {
        match split_opening_delimiter(text) {
            Some((opened, inside)) => {
                let judged = next_flaw_inside(ends, text.len(), opened, inside);
                Some(Pieces {
                    ends,
                    kind: opened.kind,
                    plain: is_raw(opened.form),
                    end: judged.end,
                    good: judged.good,
                    bad: judged.bad,
                    len: text.len(),
                    left: judged.left,
                })
            }
            None => None,
        }
    }

    #[inline]
    pub fn next(&mut self) -> Option<Piece<'t>> {
        if !self.good.is_empty() {
            let lo = self.end - self.good.len();
            let (value, after) = split_segment(self.kind, self.plain, self.good);
            let hi = self.end - after.len();
            self.good = after;
            return Some(Piece::Good(Segment { lo, hi, value }));
        }
        let Some(bad) = self.bad else {
            return None;
        };
        let judged = next_flaw(self.ends, self.len, self.left);
        self.end = judged.end;
        self.good = judged.good;
        self.bad = judged.bad;
        self.left = judged.left;
        Some(Piece::Bad(bad))
    }
}
