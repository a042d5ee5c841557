// Rendered from crates/rl_restyle/src/lib.rt by tools/render, which erases contracts: change that file, and render again.
//! Rewrites all literals of a source by a style. Parses styles from configurations too.

mod changing;
mod clean;
mod draft;
mod edit;
mod rule;
mod slices;
mod style_error;
mod styles;
mod texts;
mod value;
mod values;
mod whole;

pub use crate::rl_restyle::changing::changing_rules;
pub use crate::rl_restyle::edit::{Choice, Macros, RestyleError, Restyled};
pub use crate::rl_restyle::rule::{RULES, Rule, number_of, settable_rules};
pub use crate::rl_restyle::slices::between;
pub use crate::rl_restyle::style_error::{Expected, StyleError, StyleErrorKind};
pub use crate::rl_restyle::styles::{default_style, parse_style};
pub use crate::rl_restyle::whole::rewrite_source;
