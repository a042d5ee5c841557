#![doc = include_str!("../README.md")]
#![no_std]
#![forbid(unsafe_code)]
#![deny(missing_docs)]
#![cfg_attr(docsrs, feature(doc_cfg))]
// If a feature is disabled, links to its items are broken.
#![cfg_attr(
    not(all(
        feature = "sources",
        feature = "settings",
        feature = "flaws",
        feature = "writers",
        feature = "style",
        feature = "proc-macro"
    )),
    allow(rustdoc::broken_intra_doc_links)
)]

extern crate alloc;
#[cfg(feature = "proc-macro")]
extern crate proc_macro;
#[cfg(any(test, feature = "proc-macro"))]
extern crate std;

#[cfg(feature = "proc-macro")]
mod attributes;
mod characters;
mod common;
#[cfg(feature = "settings")]
mod config;
#[cfg(feature = "writers")]
mod constructors;
mod contents;
#[cfg(any(feature = "sources", feature = "settings"))]
mod error;
#[cfg(feature = "flaws")]
mod flaws;
#[cfg(feature = "settings")]
mod help;
mod kind;
#[cfg(feature = "sources")]
mod line_index;
#[cfg(feature = "sources")]
mod list;
#[cfg(feature = "sources")]
mod list_error;
mod lit;
#[cfg(feature = "proc-macro")]
mod located;
#[cfg(feature = "proc-macro")]
mod macro_error;
#[cfg(feature = "proc-macro")]
mod macro_places;
#[cfg(all(feature = "proc-macro", feature = "settings"))]
mod macro_settings;
#[cfg(feature = "proc-macro")]
mod meta;
#[cfg(any(feature = "sources", feature = "settings"))]
mod next_literal;
mod numbers;
mod parse_error;
#[cfg(feature = "sources")]
mod prefix;
#[cfg(feature = "proc-macro")]
mod proc_macros;
mod segments;
#[cfg_attr(
    feature = "__rendered",
    allow(missing_docs, rustdoc::broken_intra_doc_links)
)]
// The translated sources re-export names that the package reaches by other paths. They also have parameters that only contracts
// use.
#[allow(unused_imports, unused_variables)]
#[allow(clippy::style, clippy::complexity, clippy::pedantic)]
// If a feature is disabled, the translated code that only this feature uses is unused.
#[cfg_attr(
    not(all(
        feature = "sources",
        feature = "settings",
        feature = "flaws",
        feature = "writers",
        feature = "style"
    )),
    allow(dead_code)
)]
#[rustfmt::skip]
mod proved;
#[cfg(all(feature = "sources", feature = "style"))]
mod restyle;
#[cfg(feature = "style")]
mod rewrite;
#[cfg(feature = "settings")]
mod setting;
#[cfg(feature = "settings")]
mod settings;
mod simd;
#[cfg(any(feature = "proc-macro", feature = "settings"))]
mod similar;
mod slices;
#[cfg(feature = "sources")]
mod source;
mod strings;
#[cfg(any(feature = "style", feature = "writers"))]
mod style;
#[cfg(all(feature = "settings", feature = "style"))]
mod style_settings;
#[cfg(feature = "proc-macro")]
mod trees;
#[cfg(feature = "flaws")]
mod types;
mod unicode;
mod value;
#[cfg(any(test, feature = "proc-macro"))]
mod value_end;
mod words;
#[cfg(feature = "writers")]
mod write;

/// Private: the translated core of the package, for the programs of the repository. Its names change in any version.
#[cfg(feature = "__rendered")]
#[doc(hidden)]
pub mod rendered {
    pub use crate::proved::{
        rl_cursors, rl_flaws, rl_lenient, rl_lexer, rl_strict, rl_style, rl_syntax, rl_writing,
    };
}

// The translated code refers to these crates by the paths that are imported here.
#[cfg(feature = "flaws")]
use proved::rl_flaws;
#[cfg(any(feature = "sources", feature = "settings"))]
use proved::rl_lexer;
#[cfg(feature = "style")]
use proved::rl_style;
#[cfg(any(feature = "writers", feature = "style"))]
use proved::rl_writing;
use proved::{rl_cursors, rl_lenient, rl_strict, rl_syntax};

#[cfg(feature = "proc-macro")]
pub use attributes::Attrs;
pub use characters::{LitByte, LitChar};
#[cfg(feature = "settings")]
pub use config::parse_config;
#[cfg(any(feature = "sources", feature = "settings"))]
pub use error::{Part, SyntaxErrorKind};
#[cfg(feature = "flaws")]
pub use flaws::{
    flaws, flaws_in_file, guess_kind, pieces, pieces_in_file, Flaws, InvalidPiece, Piece, Pieces,
};
pub use kind::Kind;
#[cfg(feature = "sources")]
pub use line_index::{LineColumn, LineIndex};
#[cfg(feature = "sources")]
pub use list::{parse_list, Literals};
#[cfg(feature = "sources")]
pub use list_error::ListError;
pub use lit::Lit;
#[cfg(feature = "proc-macro")]
pub use located::Located;
#[cfg(feature = "proc-macro")]
pub use macro_error::{AtSpan, MacroError};
#[cfg(all(feature = "proc-macro", feature = "settings"))]
pub use macro_settings::MacroInput;
#[cfg(feature = "proc-macro")]
pub use meta::{next_attributes, next_value, Meta, MetaForm};
pub use numbers::{Base, LitFloat, LitInt, NumberType};
pub use parse_error::{FlawKind, ParseError, ParseErrorKind};
#[cfg(feature = "sources")]
pub use prefix::{leading_comments, skip_token, skip_trivia};
#[cfg(feature = "proc-macro")]
pub use proc_macros::{next_literal, next_literal_of, only_literal_of, LitOfKind};
#[cfg(all(feature = "sources", feature = "style"))]
pub use restyle::{rewrite_source, Edit, Edits};
#[cfg(feature = "style")]
pub use rewrite::{rewrite, rewrite_in_context};
/// The reason why a literal has no type in Rust. [`Lit::type_error`] returns it. Later versions may have more reasons:
///
/// ```compile_fail,E0004
/// use navyspindle::TypeError::*;
/// let all = |error| match error { BasedFloat | FloatSuffix | OutOfRange | QuotedSuffix | UnknownSuffix => () };
/// ```
///
/// ```
/// use navyspindle::{Lit, TypeError};
///
/// let error = Lit::of_text("256u8").type_error().unwrap();
/// assert_eq!(error, TypeError::OutOfRange);
/// assert_eq!((error.id(), error.message()), ("out-of-range", "out of its type's range"));
/// ```
#[cfg(feature = "flaws")]
pub use rl_flaws::TypeError;
pub use segments::{OffsetMap, Segment, SegmentValue, Segments};
#[cfg(feature = "settings")]
pub use setting::{Key, SettingError, SettingErrorKind, Settings};
#[cfg(feature = "settings")]
pub use settings::{parse_settings, Entry};
#[cfg(feature = "sources")]
pub use source::{source, Recover, Source};
pub use strings::{LitByteStr, LitCStr, LitStr};
#[cfg(any(feature = "style", feature = "writers"))]
pub use style::{Case, DigitGroups, Separator, Style};
pub use value::{Float, Integer, Number, ValueError, ValueErrorKind};
pub use words::{LitBool, LitVerbatim};
#[cfg(feature = "writers")]
pub use write::{
    write_byte, write_byte_str, write_c_str, write_char, write_char_ascii, write_integer,
    write_raw_byte_str, write_raw_c_str, write_raw_str, write_str, write_str_ascii,
};

/// Returns `true` if the text is a literal token of the Rust Reference.
///
/// ```
/// use navyspindle::is_token;
///
/// assert!(is_token("1_000_u32"));
/// assert!(!is_token("-1"));
/// assert!(!is_token("'ab'"));
/// ```
#[inline]
#[must_use]
pub fn is_token(text: &str) -> bool {
    rl_strict::read(text, rl_strict::LineEnds::Text, false).is_ok()
}
