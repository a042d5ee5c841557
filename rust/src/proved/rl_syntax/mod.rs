// Rendered from crates/rl_syntax/src/lib.rt by tools/render, which erases contracts: change that file, and render again.
//! Definitions and functions that `syn`'s and Rust's grammars of literals share: characters and their classes, searches
//! for bytes, spans, the kinds of literals, the integer types, and writers into a slice. The definitions of the two
//! grammars, of written forms and of printed token lists are in `specs/`, with their laws. Nothing is allocated.

pub mod characters;
pub mod classes;
pub mod ident;
mod integer_type;
pub mod kind;
#[cfg(any(feature = "sources", feature = "settings"))]
pub mod lanes;
#[cfg(any(feature = "sources", feature = "settings"))]
pub mod lines;
pub mod scan;
pub mod slice_writer;
#[cfg(feature = "__rendered")]
mod span;
pub mod text;
#[cfg(feature = "writers")]
mod written_into;
#[cfg(feature = "writers")]
pub mod written_unit;

pub use crate::rl_syntax::integer_type::IntegerType;
pub use crate::rl_syntax::kind::Kind;
#[cfg(feature = "__rendered")]
pub use crate::rl_syntax::span::Span;
#[cfg(feature = "writers")]
pub use crate::rl_syntax::written_into::{write_bytes_into, write_char_into, write_str_into};
