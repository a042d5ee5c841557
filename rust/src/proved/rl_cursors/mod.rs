// Rendered from crates/rl_cursors/src/lib.rt by tools/render, which erases contracts: change that file, and render again.
//! Functions that advance over literals: to the next segment of a literal's body, to the next literal of a list or a Rust
//! source, and to the next setting (`name = literal`, separated by commas or line ends). Others return the literal at the
//! start of a text, the literals and the errors of a source, or the range of a literal's text that encodes a range of its
//! decoded value.
//!
//! `rl_lenient` parses each literal, and `rl_lexer` splits texts into tokens. Nothing is allocated.

#[cfg(feature = "settings")]
mod entries;
#[cfg(feature = "settings")]
mod groups;
#[cfg(feature = "sources")]
mod leading;
#[cfg(feature = "sources")]
mod lines;
#[cfg(feature = "sources")]
mod lists;
#[cfg(any(feature = "sources", feature = "settings"))]
mod next_literals;
#[cfg(feature = "sources")]
mod openers;
mod ranges;
#[cfg(feature = "sources")]
mod recovery;
mod segments;
#[cfg(feature = "settings")]
mod settings;
#[cfg(feature = "sources")]
mod source_literals;
#[cfg(any(feature = "sources", feature = "settings"))]
mod syntax_error;
#[cfg(feature = "sources")]
mod unclosed;
#[cfg(feature = "__rendered")]
mod values;

#[cfg(feature = "settings")]
pub use crate::rl_cursors::entries::{
    DottedName, EntryRejection, EntryStep, NextEntry, next_config_entry,
};
#[cfg(feature = "settings")]
pub use crate::rl_cursors::groups::first_error;
#[cfg(feature = "sources")]
pub use crate::rl_cursors::leading::{LeadingLiteral, leading_literal, leading_signed_literal};
#[cfg(feature = "sources")]
pub use crate::rl_cursors::lists::ListLiterals;
#[cfg(any(feature = "sources", feature = "settings"))]
pub use crate::rl_cursors::next_literals::{
    ListStep, NextLiteral, Rejection, RejectionKind, next_list_literal, next_literal,
};
pub use crate::rl_cursors::ranges::text_range;
#[cfg(feature = "sources")]
pub use crate::rl_cursors::recovery::{Recovery, next_recovered_literal};
pub use crate::rl_cursors::segments::{Segment, SegmentValue, Segments, split_segment};
#[cfg(feature = "__rendered")]
pub use crate::rl_cursors::segments::text_offset;
#[cfg(feature = "settings")]
pub use crate::rl_cursors::settings::{NextSetting, SettingRejection, SettingStep, next_setting};
#[cfg(feature = "sources")]
pub use crate::rl_cursors::source_literals::{SourceStep, next_source_literal};
#[cfg(any(feature = "sources", feature = "settings"))]
pub use crate::rl_cursors::syntax_error::{
    Part, SyntaxError, SyntaxErrorKind, lexer_error, list_error,
};
