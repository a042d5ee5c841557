// Rendered from crates/rl_attributes/src/attributes/name.rt by tools/render, which erases contracts: change that file, and render again.
//! Names of attributes, as elements of an ordered set.

use crate::rattle_std::cmp::Ordering;

#[derive(Clone, Copy, PartialEq, Eq)]
pub(crate) struct Name<'a> {
    key: u64,
    text: &'a str,
}

fn key_of(name: &str) -> u64 {
    match name.as_bytes().last_chunk::<8>() {
        Some(last) => u64::from_be_bytes(*last),
        None => 0,
    }
}

impl<'a> Name<'a> {
    pub(crate) fn new(text: &'a str) -> Name<'a> {
        Name {
            key: key_of(text),
            text,
        }
    }
}

impl PartialOrd for Name<'_> {
    fn partial_cmp(&self, other: &Self) -> Option<Ordering> {
        Some(self.cmp(other))
    }
}

impl Ord for Name<'_> {
    #[inline(always)]
    fn cmp(&self, other: &Self) -> Ordering {
        if self.key > other.key {
            return Ordering::Greater;
        }
        if self.key < other.key {
            return Ordering::Less;
        }
        self.text.cmp(other.text)
    }
}
