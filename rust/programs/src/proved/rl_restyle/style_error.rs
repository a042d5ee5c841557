// Rendered from crates/rl_restyle/src/style_error.rt by tools/render, which erases contracts: change that file, and render again.
//! The errors of a style's configuration.

use crate::rl_cursors::SyntaxErrorKind;

#[derive(Clone, Copy, PartialEq, Eq, Debug)]
pub enum Expected {
    Truth,
    Size,
    Case,
    Separator,
}

#[derive(Clone, Copy, PartialEq, Eq, Debug)]
pub enum StyleErrorKind {
    Syntax(SyntaxErrorKind),
    Unknown,
    Repeated,
    Expected(Expected),
}

#[derive(Clone, Copy, PartialEq, Eq, Debug)]
pub struct StyleError<'t> {
    pub kind: StyleErrorKind,
    pub name: Option<&'t str>,
    pub lo: usize,
    pub hi: usize,
}
