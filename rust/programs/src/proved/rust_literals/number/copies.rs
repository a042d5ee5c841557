// Rendered from crates/rust_literals/src/number/copies.rt by tools/render, which erases contracts: change that file, and render again.
//! Methods of `Number` that copy a number or its token, compare, hash and print it, and append it to a token stream.

use crate::rattle_std::prelude::{String};
use crate::rust_literals::number::{Number, NumberKind};
use crate::rl_tokens::{Error, Literal, ToTokens, TokenStream, append_literal};
use crate::rattle_std::alloc::{AllocError, Allocator};
use crate::rattle_std::fmt;
use crate::rattle_std::hash::{Hash, Hasher};
use crate::rattle_std::marker::PhantomData;

fn copy_of<A: Allocator, B: Allocator>(
    alloc: B,
    text: &Option<String<A>>,
) -> Result<Option<String<B>>, AllocError> {
    match text {
        Some(text) => Ok(Some(String::from_str(alloc, text.as_str())?)),
        None => Ok(None),
    }
}

impl<K: NumberKind, A: Allocator> Number<K, A> {
    pub fn token<B: Allocator>(&self, alloc: B) -> Result<Literal<B>, Error<B>> {
        self.token.clone(alloc)
    }

    pub fn clone<B: Allocator + Copy>(&self, alloc: B) -> Result<Number<K, B>, Error<B>> {
        let token = match self.token.clone(alloc) {
            Ok(token) => token,
            Err(error) => return Err(error),
        };
        match copy_of(alloc, &self.digits) {
            Ok(digits) => Ok(Number {
                token,
                digits,
                suffix_at: self.suffix_at,
                of: PhantomData,
            }),
            Err(_) => Err(Error::out_of_memory(self.token.span())),
        }
    }
}

impl<K: NumberKind, A: Allocator> PartialEq for Number<K, A> {
    fn eq(&self, other: &Self) -> bool {
        self.token.text() == other.token.text()
    }
}

impl<K: NumberKind, A: Allocator> Eq for Number<K, A> {
}

impl<K: NumberKind, A: Allocator> Hash for Number<K, A> {
    fn hash<H: Hasher>(&self, state: &mut H) {
        self.token.text().hash(state);
    }
}

impl<K: NumberKind, A: Allocator> fmt::Debug for Number<K, A> {
    fn fmt(&self, f: &mut fmt::Formatter<'_>) -> fmt::Result {
        let name = K::KIND.struct_name();
        let text = self.token.text();
        write!(f, "{name} {{ token: {text} }}")
    }
}

impl<K: NumberKind, A: Allocator> ToTokens for Number<K, A> {
    fn to_tokens<B: Allocator>(&self, alloc: B, tokens: &mut TokenStream<B>) -> Result<(), Error<B>> {
        append_literal(alloc, &self.token, tokens)
    }
}
