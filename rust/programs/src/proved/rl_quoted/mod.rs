// Rendered from crates/rl_quoted/src/lib.rt by tools/render, which erases contracts: change that file, and render again.
//! The types of quoted literals: strings, byte strings, C strings, bytes and characters. The crate is modelled on
//! `src/lit.rs` of the crate `syn` 3.0.9.

mod inside;
mod lit_byte;
mod lit_byte_str;
mod lit_c_str;
mod lit_char;
mod lit_str;
mod quoted;
mod written;

pub use crate::rl_quoted::lit_byte::{ByteKind, LitByte};
pub use crate::rl_quoted::lit_byte_str::{ByteStrKind, LitByteStr};
pub use crate::rl_quoted::lit_c_str::{CStrKind, LitCStr};
pub use crate::rl_quoted::lit_char::{CharKind, LitChar};
pub use crate::rl_quoted::lit_str::{LitStr, StrKind};
pub use crate::rl_quoted::quoted::{Quoted, QuotedKind};
