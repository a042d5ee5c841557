// Rendered from crates/rust_literals/src/lit_bool/copies.rt by tools/render, which erases contracts: change that file, and render again.
//! Methods of `LitBool` that copy, compare, hash and print a literal, and append it to a token stream.

use crate::rust_literals::lit_bool::{LitBool, word};
use crate::rl_tokens::{Error, ToTokens, TokenStream, append_ident};
use crate::rattle_std::alloc::Allocator;
use crate::rattle_std::fmt;
use crate::rattle_std::hash::{Hash, Hasher};

impl LitBool {
    pub fn clone<B: Allocator>(&self, _alloc: B) -> Result<LitBool, Error<B>> {
        Ok(LitBool {
            value: self.value,
            span: self.span,
        })
    }
}

impl PartialEq for LitBool {
    fn eq(&self, other: &Self) -> bool {
        self.value == other.value
    }
}

impl Eq for LitBool {
}

impl Hash for LitBool {
    fn hash<H: Hasher>(&self, state: &mut H) {
        self.value.hash(state);
    }
}

impl fmt::Display for LitBool {
    fn fmt(&self, f: &mut fmt::Formatter<'_>) -> fmt::Result {
        f.pad(word(self.value))
    }
}

impl fmt::Debug for LitBool {
    fn fmt(&self, f: &mut fmt::Formatter<'_>) -> fmt::Result {
        let word = word(self.value);
        write!(f, "LitBool {{ value: {word} }}")
    }
}

impl ToTokens for LitBool {
    fn to_tokens<B: Allocator>(&self, alloc: B, tokens: &mut TokenStream<B>) -> Result<(), Error<B>> {
        append_ident(self.token(alloc)?, tokens)?;
        Ok(())
    }
}
