// Rendered from crates/rust_literals/src/lib.rt by tools/render, which erases contracts: change that file, and render again.
//! The types of Rust's literals: `Lit` with its nine variants, and the types of numbers and of `bool`. Functions that
//! read all literals of a text. The crate is modelled on `src/lit.rs` of the crate `syn` 3.0.9.

mod flat;
mod lit;
mod lit_bool;
mod lit_float;
mod lit_int;
mod literals;
mod number;
mod read;

pub use crate::rust_literals::flat::push_leading_literal;
pub use crate::rust_literals::lit::Lit;
pub use crate::rust_literals::lit_bool::LitBool;
pub use crate::rust_literals::lit_float::{FloatKind, LitFloat};
pub use crate::rust_literals::lit_int::{IntKind, LitInt};
pub use crate::rust_literals::literals::Literals;
pub use crate::rust_literals::number::{Number, NumberKind};
pub use crate::rust_literals::read::read_all;
pub use crate::rl_quoted::{LitByte, LitByteStr, LitCStr, LitChar, LitStr};
