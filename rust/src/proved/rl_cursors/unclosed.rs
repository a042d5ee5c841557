// Rendered from crates/rl_cursors/src/unclosed.rt by tools/render, which erases contracts: change that file, and render again.
//! A set of opening delimiters that are known to have no closing delimiter in the text that isn't lexed yet.

use crate::rl_cursors::openers::{Opener, split_opener};

#[derive(Clone, Copy)]
pub(crate) struct Unclosed {
    quoted: bool,
    raw: Option<usize>,
}

impl Unclosed {
    pub(crate) fn nothing() -> Unclosed {
        Unclosed {
            quoted: false,
            raw: None,
        }
    }

    pub(crate) fn is_none_open(self) -> bool {
        !self.quoted && self.raw.is_none()
    }

    fn includes(self, opener: Opener) -> bool {
        match opener {
            Opener::Quoted => self.quoted,
            Opener::Raw(hashes) => match self.raw {
                Some(least) => least <= hashes,
                None => false,
            },
        }
    }

    fn with(self, opener: Opener) -> Unclosed {
        if self.includes(opener) {
            return self;
        }
        match opener {
            Opener::Quoted => Unclosed {
                quoted: true,
                raw: self.raw,
            },
            Opener::Raw(hashes) => Unclosed {
                quoted: self.quoted,
                raw: Some(hashes),
            },
        }
    }

    pub(crate) fn begin(self, text: &str) -> bool {
        match split_opener(text) {
            Some((opener, _)) => self.includes(opener),
            None => false,
        }
    }

    pub(crate) fn after(self, text: &str) -> Unclosed {
        match split_opener(text) {
            Some((opener, _)) => self.with(opener),
            None => self,
        }
    }
}
