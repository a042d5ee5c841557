// Rendered from crates/rl_cursors/src/lists.rt by tools/render, which erases contracts: change that file, and render again.
//! The literals of a list, one by one, up to the first error.

use crate::rl_cursors::next_literals::{ListStep, next_list_literal};
use crate::rl_lexer::Tokens;

pub struct ListLiterals<'t> {
    tokens: Tokens<'t>,
    is_done: bool,
}

impl<'t> ListLiterals<'t> {
    pub fn new(text: &'t str) -> ListLiterals<'t> {
        ListLiterals {
            tokens: Tokens::new(text),
            is_done: false,
        }
    }

    #[inline(always)]
    pub fn next(&mut self) -> ListStep<'t> {
        if self.is_done {
            return ListStep::End;
        }
        let step = next_list_literal(&mut self.tokens);
        if let ListStep::Rejected(_) = step {
            self.is_done = true;
        }
        step
    }

    pub fn fork(&self) -> ListLiterals<'t> {
        ListLiterals {
            tokens: self.tokens.fork(),
            is_done: self.is_done,
        }
    }

    pub fn rest(&self) -> &'t str {
        self.tokens.rest()
    }
}
