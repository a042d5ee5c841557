// Rendered from crates/rl_lexer/src/lib.rt by tools/render, which erases contracts: change that file, and render again.
//! The lexer: it splits a text (`Tokens`) or a whole Rust source (`Sources`) into tokens, one at a time. It returns an
//! error where no token begins. Nothing is allocated.

mod cursor;
mod lex_error;
mod lexeme;
mod no_token;
mod source;
mod sources;
pub mod whitespace;

pub use crate::rl_lexer::cursor::{Lexeme, Tokens};
pub use crate::rl_lexer::lex_error::{LexError, LexKind};
pub use crate::rl_lexer::lexeme::{Form, is_opener};
pub use crate::rl_lexer::no_token::source_error_kind;
pub use crate::rl_lexer::source::{SourceForm, first_source_token, without_byte_order_mark};
pub use crate::rl_lexer::sources::{SourceToken, Sources};
