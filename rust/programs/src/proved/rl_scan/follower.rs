// Rendered from crates/rl_scan/src/follower.rt by tools/render, which erases contracts: change that file, and render again.
//! Follows the tokens of a source, and finds out which of them are in macro calls.

use crate::rl_lexer::{SourceToken, Sources};
use crate::rl_style::{Calls, advance_calls, is_in_call};

pub(crate) struct Follower<'t> {
    source: &'t str,
    tokens: Sources<'t>,
    calls: Calls<'t>,
}

impl<'t> Follower<'t> {
    pub(crate) fn new(source: &'t str) -> Follower<'t> {
        Follower {
            source,
            tokens: Sources::new(source),
            calls: Calls::Outside,
        }
    }

    pub(crate) fn text_before(&self, lo: usize) -> Option<&'t str> {
        self.source.get(..lo)
    }

    #[inline(always)]
    fn next(&mut self) -> Option<(SourceToken<'t>, bool)> {
        let Some(token) = self.tokens.next() else {
            return None;
        };
        let is_inside = is_in_call(self.calls);
        self.calls = advance_calls(self.calls, token);
        Some((token, is_inside))
    }

    pub(crate) fn is_in_call_at(&mut self, lo: usize) -> bool {
        for _ in 0..u64::MAX {
            let Some((token, is_inside)) = self.next() else {
                return false;
            };
            if token.lo >= lo {
                return token.lo == lo && is_inside;
            }
        }
        false
    }
}
