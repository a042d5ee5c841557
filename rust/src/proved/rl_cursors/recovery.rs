// Rendered from crates/rl_cursors/src/recovery.rt by tools/render, which erases contracts: change that file, and render again.
//! A cursor over the literals and the errors of a source. Lexing resumes after each error.

use crate::rl_cursors::lines::lines_after;
use crate::rl_cursors::source_literals::SourceStep;
use crate::rl_cursors::unclosed::Unclosed;
use crate::rl_lenient::parse_literal;
use crate::rl_lexer::{LexError, SourceToken, Sources, source_error_kind};

fn next_known<'t>(tokens: &mut Sources<'t>, unclosed: Unclosed) -> Option<SourceToken<'t>> {
    loop {
        if unclosed.begin(tokens.rest()) {
            return None;
        }
        let token = tokens.next()?;
        if token.is_literal() {
            return Some(token);
        }
    }
}

fn next_of<'t>(tokens: &mut Sources<'t>, unclosed: Unclosed) -> Option<SourceToken<'t>> {
    if unclosed.is_none_open() {
        return tokens.next_literal();
    }
    next_known(tokens, unclosed)
}

pub struct Recovery<'t> {
    text: &'t str,
    part: &'t str,
    rest: &'t str,
    unclosed: Unclosed,
}

impl<'t> Recovery<'t> {
    pub fn resume(text: &'t str, rest: &'t str) -> Recovery<'t> {
        Recovery {
            text,
            part: text,
            rest,
            unclosed: Unclosed::nothing(),
        }
    }

    pub fn fork(&self) -> Recovery<'t> {
        Recovery {
            text: self.text,
            part: self.part,
            rest: self.rest,
            unclosed: self.unclosed,
        }
    }

    pub fn rest(&self) -> &'t str {
        self.rest
    }

    fn go_on(&mut self, rest: &'t str) {
        let unclosed = self.unclosed.after(rest);
        match lines_after(rest) {
            Some(lines) => {
                let tokens = Sources::new(lines);
                self.part = lines;
                self.rest = tokens.rest();
                self.unclosed = unclosed;
            }
            None => {
                self.part = "";
                self.rest = "";
            }
        }
    }

    fn stop(&mut self, rest: &'t str) -> Option<LexError> {
        let at = self.text.len() - rest.len();
        if rest.is_empty() {
            self.rest = rest;
            return None;
        }
        self.go_on(rest);
        Some(LexError::new(source_error_kind(rest), at))
    }

    pub fn next_literal(&mut self) -> Option<Result<SourceToken<'t>, LexError>> {
        let before = self.text.len() - self.part.len();
        let mut tokens = Sources::resume(self.part, self.rest);
        match next_of(&mut tokens, self.unclosed) {
            Some(token) => {
                self.rest = tokens.rest();
                Some(Ok(placed(before, token)))
            }
            None => match self.stop(tokens.rest()) {
                Some(error) => Some(Err(error)),
                None => None,
            },
        }
    }
}

fn placed(before: usize, token: SourceToken<'_>) -> SourceToken<'_> {
    SourceToken {
        form: token.form,
        text: token.text,
        lo: before + token.lo,
        hi: before + token.hi,
    }
}

#[inline(always)]
pub fn next_recovered_literal<'t>(source: &mut Recovery<'t>) -> SourceStep<'t> {
    match source.next_literal() {
        Some(Ok(token)) => SourceStep::Literal(token, parse_literal(token.text)),
        Some(Err(error)) => SourceStep::Rejected(error),
        None => SourceStep::End,
    }
}
