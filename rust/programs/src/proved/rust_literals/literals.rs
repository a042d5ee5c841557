// Rendered from crates/rust_literals/src/literals.rt by tools/render, which erases contracts: change that file, and render again.
//! An iterator over the literals of a text.

use crate::rust_literals::flat::take_next;
use crate::rust_literals::lit::Lit;
use crate::rust_literals::read::read_after;
use crate::rl_tokens::{Error, Tokens};
use crate::rattle_std::alloc::{Allocator, Global};
use crate::rattle_std::vec::IntoIter;

pub struct Literals<'t, A: Allocator = Global> {
    alloc: A,
    text: &'t str,
    file: u32,
    tokens: Tokens<'t>,
    count: usize,
    waiting: Option<IntoIter<Lit<A>, A>>,
}

impl<'t, A: Allocator + Copy> Literals<'t, A> {
    pub fn new(alloc: A, text: &'t str, file: u32) -> Literals<'t, A> {
        Literals {
            alloc,
            text,
            file,
            tokens: Tokens::new(text),
            count: 0,
            waiting: None,
        }
    }

    fn take_waiting(&mut self) -> Result<Option<Lit<A>>, Error<A>> {
        let mut waiting = read_after(self.alloc, self.text, self.file, self.count)?.into_iter();
        let first = waiting.next();
        self.waiting = Some(waiting);
        Ok(first)
    }

    fn lex_next(&mut self) -> Result<Option<Lit<A>>, Error<A>> {
        if self.tokens.rest().is_empty() {
            return Ok(None);
        }
        let mut ahead = self.tokens.fork();
        match take_next(self.alloc, &mut ahead, self.file) {
            Ok(Some(literal)) => {
                self.tokens = ahead;
                self.count += 1;
                Ok(Some(literal))
            }
            _ => self.take_waiting(),
        }
    }

    pub fn next(&mut self) -> Result<Option<Lit<A>>, Error<A>> {
        match &mut self.waiting {
            Some(waiting) => Ok(waiting.next()),
            None => self.lex_next(),
        }
    }
}
