// Rendered from crates/rl_writing/src/lib.rt by tools/render, which erases contracts: change that file, and render again.
//! Functions that write literals in other forms than those of `rl_syntax`: integers in a style, raw strings, and
//! strings and characters in ASCII. Other functions test for invisible and bidirectional characters.
//!
//! Each written text is a single literal token, and its parsed value is the value that was written. Nothing is
//! allocated.

mod ascii;
#[cfg(feature = "writers")]
mod base;
#[cfg(feature = "style")]
mod hiding;
#[cfg(feature = "writers")]
mod integers;
mod numerals;
mod raw_strings;

pub use crate::rl_writing::ascii::put_unicode_escape;
#[cfg(feature = "writers")]
pub use crate::rl_writing::ascii::{write_char_ascii_into, write_str_ascii_into};
#[cfg(feature = "writers")]
pub use crate::rl_writing::base::Base;
#[cfg(feature = "style")]
pub use crate::rl_writing::hiding::{is_control_invisible_or_bidi, is_invisible_or_bidi};
#[cfg(feature = "writers")]
pub use crate::rl_writing::integers::{IntegerStyle, write_integer_into};
pub use crate::rl_writing::numerals::{digit_group_size, is_digit_group_end};
pub use crate::rl_writing::raw_strings::{min_raw_hashes, raw_text_and_hashes, write_raw_into};
