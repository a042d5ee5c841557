// Rendered from crates.txt by tools/render: change that file, and render again.
//! The crates of the core as `tools/render` writes them: their functions without the contracts.

pub mod rl_cursors;
#[cfg(feature = "flaws")]
pub mod rl_flaws;
pub mod rl_lenient;
#[cfg(any(feature = "sources", feature = "settings"))]
pub mod rl_lexer;
pub mod rl_strict;
#[cfg(feature = "style")]
pub mod rl_style;
pub mod rl_syntax;
#[cfg(any(feature = "writers", feature = "style"))]
pub mod rl_writing;
