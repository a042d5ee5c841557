// Rendered from crates/rl_lexer/src/sources.rt by tools/render, which erases contracts: change that file, and render again.
//! The cursor that lexes a whole Rust source's tokens one at a time.

use crate::rl_lexer::lex_error::LexError;
use crate::rl_lexer::no_token::source_error_kind;
use crate::rl_lexer::source::{
    SourceForm, first_source_token, is_literal, skip_unlikely, without_preamble,
};
#[cfg(feature = "__rendered")]
use crate::rl_lexer::source::after_first_line;
use crate::rl_lexer::whitespace::skip;

#[derive(Clone, Copy)]
pub struct SourceToken<'t> {
    pub form: SourceForm,
    pub text: &'t str,
    pub lo: usize,
    pub hi: usize,
}

impl SourceToken<'_> {
    #[inline(always)]
    pub fn is_literal(&self) -> bool {
        match self.form {
            SourceForm::Token(form) => is_literal(form, self.text),
            _ => false,
        }
    }
}

pub struct Sources<'t> {
    text: &'t str,
    rest: &'t str,
}

impl<'t> Sources<'t> {
    pub fn new(text: &'t str) -> Sources<'t> {
        Sources {
            text,
            rest: skip(without_preamble(text)),
        }
    }

    #[inline(always)]
    pub fn resume(text: &'t str, rest: &'t str) -> Sources<'t> {
        Sources { text, rest }
    }

    #[inline(always)]
    pub fn next(&mut self) -> Option<SourceToken<'t>> {
        let (form, following) = first_source_token(self.rest)?;
        let lo = self.text.len() - self.rest.len();
        let hi = self.text.len() - following.len();
        let text = &self.rest[..self.rest.len() - following.len()];
        self.rest = skip(following);
        Some(SourceToken { form, text, lo, hi })
    }

    pub fn next_literal(&mut self) -> Option<SourceToken<'t>> {
        loop {
            self.rest = skip_unlikely(self.rest);
            let token = self.next()?;
            if token.is_literal() {
                return Some(token);
            }
        }
    }

    pub fn error(&self) -> Option<LexError> {
        if self.rest.is_empty() || first_source_token(self.rest).is_some() {
            return None;
        }
        let kind = source_error_kind(self.rest);
        let at = self.text.len() - self.rest.len();
        Some(LexError::new(kind, at))
    }

    pub fn rest(&self) -> &'t str {
        self.rest
    }

    #[cfg(feature = "__rendered")]
    pub fn following_lines(&self) -> Option<&'t str> {
        after_first_line(self.rest)
    }
}

#[cfg(feature = "__rendered")]
impl<'t> Iterator for Sources<'t> {
    type Item = SourceToken<'t>;

    #[inline(always)]
    fn next(&mut self) -> Option<SourceToken<'t>> {
        Sources::next(self)
    }
}
