// Rendered from crates/rust_literals/src/lit/copies.rt by tools/render, which erases contracts: change that file, and render again.
//! Methods of `Lit` that copy, compare, hash and print a literal, and append it to a token stream.

use crate::rust_literals::lit::Lit;
use crate::rl_syntax::Kind;
use crate::rl_tokens::{Error, Kept, Literal, Span, ToTokens, TokenStream, TokenTree};
use crate::rattle_std::alloc::Allocator;
use crate::rattle_std::fmt;
use crate::rattle_std::hash::{Hash, Hasher};

impl<A: Allocator> Lit<A> {
    pub fn clone<B: Allocator + Copy>(&self, alloc: B) -> Result<Lit<B>, Error<B>> {
        Ok(match self {
            Lit::Str(literal) => Lit::Str(literal.clone(alloc)?),
            Lit::ByteStr(literal) => Lit::ByteStr(literal.clone(alloc)?),
            Lit::CStr(literal) => Lit::CStr(literal.clone(alloc)?),
            Lit::Byte(literal) => Lit::Byte(literal.clone(alloc)?),
            Lit::Char(literal) => Lit::Char(literal.clone(alloc)?),
            Lit::Int(literal) => Lit::Int(literal.clone(alloc)?),
            Lit::Float(literal) => Lit::Float(literal.clone(alloc)?),
            Lit::Bool(literal) => Lit::Bool(literal.clone(alloc)?),
            Lit::Verbatim(token) => Lit::Verbatim(token.clone(alloc)?),
        })
    }

    fn variant(&self) -> u8 {
        match self.kind() {
            Some(kind) => kind as u8,
            None => 8,
        }
    }
}

impl<A: Allocator> PartialEq for Lit<A> {
    fn eq(&self, other: &Self) -> bool {
        self.variant() == other.variant() && self.text() == other.text()
    }
}

impl<A: Allocator> Eq for Lit<A> {
}

impl<A: Allocator> Hash for Lit<A> {
    fn hash<H: Hasher>(&self, state: &mut H) {
        state.write_u8(self.variant());
        self.text().hash(state);
    }
}

impl<A: Allocator> fmt::Display for Lit<A> {
    fn fmt(&self, f: &mut fmt::Formatter<'_>) -> fmt::Result {
        f.pad(self.text())
    }
}

impl<A: Allocator> fmt::Debug for Lit<A> {
    fn fmt(&self, f: &mut fmt::Formatter<'_>) -> fmt::Result {
        let text = self.text();
        match self.kind() {
            Some(Kind::Bool) => write!(f, "LitBool {{ value: {text} }}"),
            Some(kind) => {
                let name = kind.struct_name();
                write!(f, "{name} {{ token: {text} }}")
            }
            None => write!(f, "Verbatim {{ token: {text} }}"),
        }
    }
}

fn append_text<A: Allocator>(
    alloc: A,
    text: &str,
    span: Span,
    tokens: &mut TokenStream<A>,
) -> Result<(), Error<A>> {
    let token = Literal::from_text(alloc, text, span)?;
    match tokens.append(TokenTree::Literal(token)) {
        Ok(()) => Ok(()),
        Err(Kept { error, .. }) => Err(error),
    }
}

impl<A: Allocator> ToTokens for Lit<A> {
    fn to_tokens<B: Allocator>(&self, alloc: B, tokens: &mut TokenStream<B>) -> Result<(), Error<B>> {
        match self {
            Lit::Bool(literal) => literal.to_tokens(alloc, tokens),
            _ => append_text(alloc, self.text(), self.span(), tokens),
        }
    }
}
