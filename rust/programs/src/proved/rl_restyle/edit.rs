// Rendered from crates/rl_restyle/src/edit.rt by tools/render, which erases contracts: change that file, and render again.
//! A rewritten source, the choice of its literals, and the reasons why a source isn't rewritten.

use crate::rattle_std::prelude::{String};
use crate::rl_lexer::LexError;
use crate::rl_syntax::Kind;
use crate::rattle_std::alloc::{Allocator, Global};

#[derive(Clone, Copy)]
pub enum Macros {
    Skip,
    All,
}

#[derive(Clone, Copy)]
pub struct Choice<'a> {
    pub macros: Macros,
    pub kinds: Option<&'a [Option<Kind>]>,
}

pub struct Restyled<A: Allocator = Global> {
    pub text: String<A>,
    pub is_clean: bool,
}

#[derive(Clone, Copy)]
pub enum RestyleError {
    Script,
    Source(LexError),
    Memory,
}
