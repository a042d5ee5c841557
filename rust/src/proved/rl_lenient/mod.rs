// Rendered from crates/rl_lenient/src/lib.rt by tools/render, which erases contracts: change that file, and render again.
//! Parsers of single literals by the lenient grammar, which is that of `syn`. Other functions decode a string into a
//! slice that the caller passes, or return the parts of a number.
//!
//! The parsers follow the module `value` in `src/lit.rs` of the crate `syn` 3.0.9. Nothing is allocated.

pub mod contents;
pub mod digit_runs;
mod digits;
pub mod found;
mod integers;
pub mod number_forms;
mod numbers;
pub mod parts;
pub mod quoted_forms;
pub mod units;
#[cfg(feature = "__rendered")]
pub mod values;

pub use crate::rl_lenient::contents::decode_bytes_into;
#[cfg(feature = "__rendered")]
pub use crate::rl_lenient::contents::{
    byte_of, byte_of_body, char_of, char_of_body, decode_str_into, is_plain,
};
pub use crate::rl_lenient::digits::{float_digits_into, is_plain_integer};
pub use crate::rl_lenient::found::{Body, Found, bool_of, parse_literal};
#[cfg(feature = "__rendered")]
pub use crate::rl_lenient::found::{Parts, parse_float_literal, parse_int_literal, shape};
#[cfg(any(feature = "sources", feature = "settings"))]
pub use crate::rl_lenient::found::parse_with_added_minus;
pub use crate::rl_lenient::integers::{Integer, ValueFlaw, integer_value, is_signed};
#[cfg(feature = "__rendered")]
pub use crate::rl_lenient::number_forms::{float_shape, int_shape, shape_negative};
pub use crate::rl_lenient::numbers::{FloatParts, IntegerParts, float_parts, integer_parts};
