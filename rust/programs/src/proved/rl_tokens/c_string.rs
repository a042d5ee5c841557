// Rendered from crates/rl_tokens/src/c_string.rt by tools/render, which erases contracts: change that file, and render again.
//! C strings: sequences of bytes without a zero byte.

use crate::rattle_std::prelude::{Vec};
use crate::rattle_std::alloc::{Allocator, Global};
use crate::rattle_std::fmt;

pub struct CString<A: Allocator = Global> {
    bytes: Vec<u8, A>,
}

pub struct NulError<A: Allocator = Global> {
    bytes: Vec<u8, A>,
    place: usize,
}

impl<A: Allocator> CString<A> {
    pub fn new(bytes: Vec<u8, A>) -> Result<CString<A>, NulError<A>> {
        match first_zero(bytes.as_slice()) {
            Some(place) => Err(NulError { bytes, place }),
            None => Ok(CString { bytes }),
        }
    }

    pub fn as_bytes(&self) -> &[u8] {
        self.bytes.as_slice()
    }
}

fn first_zero(bytes: &[u8]) -> Option<usize> {
    bytes.iter().position(|b| *b == 0)
}

impl<A: Allocator> NulError<A> {
    pub fn nul_position(&self) -> usize {
        self.place
    }

    pub fn into_vec(self) -> Vec<u8, A> {
        let NulError { bytes, place: _ } = self;
        bytes
    }
}

impl<A: Allocator> PartialEq for CString<A> {
    fn eq(&self, other: &Self) -> bool {
        self.as_bytes() == other.as_bytes()
    }
}

impl<A: Allocator> Eq for CString<A> {
}

impl<A: Allocator> PartialEq for NulError<A> {
    fn eq(&self, other: &Self) -> bool {
        self.bytes == other.bytes && self.place == other.place
    }
}

impl<A: Allocator> Eq for NulError<A> {
}

impl<A: Allocator> fmt::Debug for CString<A> {
    fn fmt(&self, f: &mut fmt::Formatter<'_>) -> fmt::Result {
        let bytes = &self.bytes;
        write!(f, "CString({bytes:?})")
    }
}

impl<A: Allocator> fmt::Debug for NulError<A> {
    fn fmt(&self, f: &mut fmt::Formatter<'_>) -> fmt::Result {
        let bytes = &self.bytes;
        let place = self.place;
        write!(f, "NulError({place}, {bytes:?})")
    }
}
