// Rendered from crates/rl_files/src/replace.rt by tools/render, which erases contracts: change that file, and render again.
//! A trait for types that replace files.

use crate::rl_files::tree::PathError;
use crate::rattle_std::alloc::Allocator;

pub trait Replace {
    fn replace<A: Allocator + Copy>(
        &mut self,
        alloc: A,
        path: &str,
        old: &[u8],
        new: &[u8],
    ) -> Result<(), PathError>;
}
