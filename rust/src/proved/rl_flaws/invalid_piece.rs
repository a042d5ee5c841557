// Rendered from crates/rl_flaws/src/invalid_piece.rt by tools/render, which erases contracts: change that file, and render again.
//! A flaw, and the range of text to show for it.

use crate::rl_flaws::piece_ends::{after_bad_piece, is_flaw_of_unit};
use crate::rl_strict::flaws::FlawAt;
use crate::rl_strict::strict_reading::skip_first_char;
use crate::rl_strict::{Flaw, LineEnds};

#[derive(Clone, Copy, PartialEq, Eq, Debug)]
pub struct InvalidPiece {
    pub flaw: Flaw,
    pub end: usize,
}

#[inline]
pub fn end_of(ends: LineEnds, len: usize, quote: char, flaw: Flaw, piece: &str) -> usize {
    if is_flaw_of_unit(flaw.kind) {
        len - after_bad_piece(ends, quote, piece).len()
    } else {
        flaw.hi
    }
}

#[inline]
pub fn invalid_piece_with_offsets(
    ends: LineEnds,
    len: usize,
    quote: char,
    found: FlawAt<'_>,
) -> InvalidPiece {
    let flaw = Flaw {
        kind: found.kind,
        from: len - found.piece.len(),
        lo: len - found.rest.len(),
        hi: len - skip_first_char(ends, found.rest).len(),
    };
    InvalidPiece {
        flaw,
        end: end_of(ends, len, quote, flaw, found.piece),
    }
}
