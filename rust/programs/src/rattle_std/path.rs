//! A replacement for Rattle's `std::path`. A path is a text.

use super::alloc::{Allocator, Global};
use super::string::String;

/// An owned path.
pub struct PathBuf<A: Allocator = Global>(String<A>);

impl<A: Allocator> PathBuf<A> {
    pub(super) fn of(path: String<A>) -> PathBuf<A> {
        PathBuf(path)
    }

    pub fn as_str(&self) -> &str {
        self.0.as_str()
    }
}
