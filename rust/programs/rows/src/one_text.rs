//! A file tree with one text.

use crate::rattle_std::alloc::Allocator;
use crate::rattle_std::vec::Vec as List;
use navyspindle_programs::rl_files::{PathError, Tree};

/// A file tree without directories in which every file, and standard input, has this text.
pub struct OneText(pub String);

impl Tree for OneText {
    fn bytes<A: Allocator>(&self, alloc: A, _path: &str) -> Result<List<u8, A>, PathError> {
        Ok(List::from_slice(alloc, self.0.as_bytes()).expect("memory"))
    }

    fn names<A: Allocator + Copy>(
        &self,
        _alloc: A,
        _path: &str,
    ) -> Result<List<List<u8, A>, A>, PathError> {
        Err(PathError::NotADirectory)
    }
}
