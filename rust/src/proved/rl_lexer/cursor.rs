// Rendered from crates/rl_lexer/src/cursor.rt by tools/render, which erases contracts: change that file, and render again.
//! The cursor that lexes a text's tokens one at a time.

use crate::rl_lexer::lex_error::LexError;
use crate::rl_lexer::lexeme::{Form, first_lexeme};
use crate::rl_lexer::no_token::error_kind;
use crate::rl_lexer::whitespace::skip;

#[derive(Clone, Copy)]
pub struct Lexeme<'t> {
    pub form: Form,
    pub text: &'t str,
    pub lo: usize,
    pub hi: usize,
}

pub struct Tokens<'t> {
    text: &'t str,
    rest: &'t str,
}

impl<'t> Tokens<'t> {
    pub fn new(text: &'t str) -> Tokens<'t> {
        Tokens {
            text,
            rest: skip(text),
        }
    }

    #[inline(always)]
    pub fn next(&mut self) -> Option<Lexeme<'t>> {
        let (form, following) = first_lexeme(self.rest)?;
        let lo = self.text.len() - self.rest.len();
        let hi = self.text.len() - following.len();
        let text = &self.rest[..self.rest.len() - following.len()];
        self.rest = skip(following);
        Some(Lexeme { form, text, lo, hi })
    }

    #[inline(always)]
    pub fn fork(&self) -> Tokens<'t> {
        Tokens {
            text: self.text,
            rest: self.rest,
        }
    }

    pub fn error(&self) -> Option<LexError> {
        if self.rest.is_empty() {
            return None;
        }
        if first_lexeme(self.rest).is_some() {
            return None;
        }
        let kind = error_kind(self.rest);
        let at = self.text.len() - self.rest.len();
        Some(LexError::new(kind, at))
    }

    pub fn rest(&self) -> &'t str {
        self.rest
    }
}

#[cfg(feature = "__rendered")]
impl<'t> Iterator for Tokens<'t> {
    type Item = Lexeme<'t>;

    #[inline(always)]
    fn next(&mut self) -> Option<Lexeme<'t>> {
        Tokens::next(self)
    }
}
