// Rendered from crates/rl_cursors/src/values.rt by tools/render, which erases contracts: change that file, and render again.
//! Functions that return the value of an integer literal of a list, with the sign. Another function tests whether a
//! literal has a suffix.

use crate::rl_cursors::next_literals::NextLiteral;
use crate::rl_lenient::digit_runs::is_negative;
use crate::rl_lenient::values::number_found;

fn ends_at(text: &str, minus_at: Option<usize>, at: usize) -> bool {
    match minus_at {
        Some(_) => at == text.len() + 1,
        None => at == text.len(),
    }
}

impl NextLiteral<'_> {
    fn is_minus(&self) -> bool {
        match self.minus_at {
            Some(_) => true,
            None => is_negative(self.token.text),
        }
    }

    pub fn has_suffix(&self) -> bool {
        match self.found {
            Some(found) => !ends_at(self.token.text, self.minus_at, found.body.suffix_at),
            None => false,
        }
    }

    pub fn signed(&self) -> Option<i128> {
        match self.found {
            Some(found) => number_found(&found, self.is_minus()),
            None => None,
        }
    }

    pub fn value_if_unsuffixed(&self) -> Option<i128> {
        if self.has_suffix() {
            return None;
        }
        self.signed()
    }
}
