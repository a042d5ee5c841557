// Rendered from crates/rl_attributes/src/attributes.rt by tools/render, which erases contracts: change that file, and render again.
//! The types of attributes, which are settings `name = literal`, and of lists of them.

use crate::rattle_std::prelude::{String, Vec};
mod name;
mod take;
mod whole;

use crate::rl_tokens::Span;
use crate::rust_literals::Lit;
use crate::rattle_std::alloc::{Allocator, Global};
pub use whole::read;

pub struct Entry<A: Allocator = Global> {
    pub name: String<A>,
    pub span: Span,
    pub value: Lit<A>,
}

pub struct Attrs<A: Allocator = Global> {
    entries: Vec<Entry<A>, A>,
    end: Span,
}

impl<A: Allocator> Attrs<A> {
    pub fn entries(&self) -> &[Entry<A>] {
        self.entries.as_slice()
    }

    pub fn end_span(&self) -> Span {
        self.end
    }

    pub fn get(&self, name: &str) -> Option<&Lit<A>> {
        for entry in self.entries() {
            if entry.name.as_str() == name {
                return Some(&entry.value);
            }
        }
        None
    }
}
