// Rendered from crates/rl_style/src/lib.rt by tools/render, which erases contracts: change that file, and render again.
//! Rewrites literals by a style, such as the case of hexadecimal digits. A rewritten literal has the kind, the value and the
//! suffix of the old one, except that `1.` may become `1.0`. Nothing is allocated.

#[cfg(feature = "sources")]
mod calls;
mod case;
mod characters;
mod codes;
mod cooked;
mod groups;
mod hidden;
mod mistyped;
mod numbers;
mod raw;
#[cfg(feature = "sources")]
mod restylable;
mod rewrite;
#[cfg(any(feature = "sources", feature = "settings"))]
mod rules;
mod style;
#[cfg(feature = "sources")]
mod whole;

#[cfg(feature = "sources")]
pub use crate::rl_style::calls::{Calls, advance_calls, is_in_call};
#[cfg(feature = "sources")]
pub use crate::rl_style::restylable::{Restylable, Restylables};
pub use crate::rl_style::rewrite::{growth, rewrite_within};
#[cfg(feature = "__rendered")]
pub use crate::rl_style::rewrite::rewrite_into;
#[cfg(any(feature = "sources", feature = "settings"))]
pub use crate::rl_style::rules::{Rule, all_rules, is_changed_by_style};
pub use crate::rl_style::style::{Case, DigitGroups, Separator, Style};
#[cfg(feature = "sources")]
pub use crate::rl_style::whole::is_safe_to_restyle;
