// Rendered from crates/rust_literals/src/number/base10.rt by tools/render, which erases contracts: change that file, and render again.
//! The conversion of a number literal to a value of a Rust type as `u8` or `f64`.

use crate::rattle_std::prelude::{Drop, format};
use crate::rust_literals::number::{Number, NumberKind};
use crate::rl_tokens::{Error, ErrorKind, Span};
use crate::rattle_std::alloc::Allocator;
use crate::rattle_std::fmt::Display;
use crate::rattle_std::str::FromStr;

fn reported<F: Display, B: Allocator>(alloc: B, error: &F, span: Span) -> Error<B> {
    match format!(in alloc; "{error}") {
        Ok(words) => Error {
            span,
            kind: ErrorKind::Number(words),
        },
        Err(_) => Error::out_of_memory(span),
    }
}

impl<K: NumberKind, A: Allocator> Number<K, A> {
    pub fn base10_parse<N: FromStr, B: Allocator>(&self, alloc: B) -> Result<N, Error<B>>
    where
        N::Err: Display + Drop, {
        match N::from_str(self.base10_digits()) {
            Ok(number) => Ok(number),
            Err(error) => Err(reported(alloc, &error, self.span())),
        }
    }
}
