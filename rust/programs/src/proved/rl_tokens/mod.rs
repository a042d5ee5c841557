// Rendered from crates/rl_tokens/src/lib.rt by tools/render, which erases contracts: change that file, and render again.
//! Tokens of Rust's literals, token trees, the lexer, parse buffers, the traits of parsers, functions that write values
//! as literals, and errors. The crate is modelled on `src/whitespace.rs` and the parsers of the crate `syn` 3.0.9. The
//! items that don't allocate are defined in the crates `rl_lexer` and `rl_syntax`, and are re-exported here.

mod appending;
mod buffer;
mod c_string;
mod error;
pub mod ident;
mod kept;
mod lexer;
mod literal;
mod nest;
mod parse;
mod punct;
mod rewind;
mod token;
mod whole;
mod writer;

pub use crate::rl_tokens::appending::{append_ident, append_literal};
pub use crate::rl_tokens::buffer::ParseBuffer;
pub use crate::rl_tokens::c_string::{CString, NulError};
pub use crate::rl_tokens::error::{Error, ErrorKind};
pub use crate::rl_tokens::ident::Ident;
pub use crate::rl_tokens::kept::Kept;
pub use crate::rl_tokens::lexer::lex;
pub use crate::rl_tokens::literal::Literal;
pub use crate::rl_tokens::parse::{ByParse, Parse, Parser, ToTokens, Token};
pub use crate::rl_tokens::punct::Punct;
pub use crate::rl_tokens::rewind::{Rewind, attempt};
pub use crate::rl_tokens::token::{Delimiter, Group, TokenStream, TokenTree};
pub use crate::rl_tokens::whole::{lex_for_parsing, parse_all};
pub use crate::rl_tokens::writer::{push_str_literal, write_str_list};
pub use crate::rl_lexer::{
    Form, LexError, LexKind, Lexeme, SourceForm, SourceToken, Sources, Tokens, whitespace,
};
pub use crate::rl_syntax::{
    Kind, Span, characters, classes, scan, slice_writer, text, write_bytes_into, write_char_into,
    write_str_into,
};
