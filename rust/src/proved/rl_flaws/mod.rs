// Rendered from crates/rl_flaws/src/lib.rt by tools/render, which erases contracts: change that file, and render again.
//! Finds every flaw of a possibly invalid literal, in a separate text or in a file. The crate also guesses the kind of an
//! invalid literal, and splits a quoted literal into its valid and invalid pieces. For valid literals, it checks Rust's rules
//! beyond the grammar: the suffix, the range, and the text directly before the literal. Nothing is allocated.

#[cfg(feature = "__rendered")]
mod before;
mod closings;
pub mod flaws;
mod float_range;
mod invalid_piece;
mod kind_guess;
mod number_types;
mod piece_ends;
pub mod pieces;
mod type_errors;
mod walks;

#[cfg(feature = "__rendered")]
pub use crate::rl_flaws::before::{Edition, first_reserving_edition, may_be_negated};
pub use crate::rl_flaws::flaws::Flaws;
pub use crate::rl_flaws::invalid_piece::InvalidPiece;
pub use crate::rl_flaws::kind_guess::guess_kind;
pub use crate::rl_flaws::number_types::{NumberType, max_integer, type_named};
pub use crate::rl_flaws::piece_ends::is_flaw_of_unit;
pub use crate::rl_flaws::pieces::{Piece, Pieces};
pub use crate::rl_flaws::type_errors::{TypeError, type_error, type_error_of};
