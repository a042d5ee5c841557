//! A replacement for Rattle's `std::alloc`: allocators, and the errors of a failed allocation.
//!
//! It is more limited than Rattle's module. All memory comes from Rust's own allocator, and no call here returns a block. Lists,
//! texts and sets reserve memory with Rust's `try_reserve`. Before that they ask the `Allocator` that they were created with, so
//! that a test's allocator can fail and count blocks.

use core::fmt;
use core::hash::Hash;
use core::hint;
use std::collections::TryReserveError;

/// The allocator of a collection. All allocators use Rust's own allocator. An allocator of a test may also fail, and count blocks.
pub trait Allocator: Copy + Ord + Hash + fmt::Debug {
    /// Whether the allocator permits the next allocation. If it does, the collection tries the allocation.
    #[inline(always)]
    fn grants(&self) -> bool {
        true
    }

    /// Reports that a collection without a block allocated one.
    #[inline(always)]
    fn takes(&self) {}

    /// Reports that a block was freed.
    #[inline(always)]
    fn gives_back(&self) {}
}

/// Rust's own allocator.
#[derive(Clone, Copy, PartialEq, Eq, PartialOrd, Ord, Hash, Debug)]
pub struct Global;

impl Allocator for Global {}

/// Asks the allocator for permission, and then reserves a block with `reserve`. `holds` says that the collection already has a
/// block, which the new one replaces. Returns whether the collection has the memory.
pub(super) fn asks<A: Allocator>(
    alloc: &A,
    holds: bool,
    reserve: impl FnOnce() -> Result<(), TryReserveError>,
) -> bool {
    if !alloc.grants() || reserve().is_err() {
        return false;
    }
    if !holds {
        alloc.takes();
    }
    true
}

/// Whether `count` values fit into the largest possible block. For more values no allocator is asked.
pub(super) fn may_hold<T>(count: Option<usize>) -> bool {
    count.is_some_and(|count| count <= isize::MAX as usize / size_of::<T>().max(1))
}

/// Returns `true` if a block of `len` bytes can be allocated now. The block is freed at once.
///
/// This check precedes calls of Rust's std that allocate up to `len` bytes and end the process if the allocation fails. No other
/// code runs between the check and the call.
pub(super) fn has_room(len: usize) -> bool {
    let mut tried = std::vec::Vec::<u8>::new();
    let has_room = tried.try_reserve_exact(len).is_ok();
    // Otherwise the compiler may remove the allocation.
    hint::black_box(&tried);
    has_room
}

/// The error that an allocation failed.
#[derive(Clone, Copy, PartialEq, Eq, Debug)]
pub struct AllocError;

impl fmt::Display for AllocError {
    fn fmt(&self, f: &mut fmt::Formatter<'_>) -> fmt::Result {
        f.write_str("memory allocation failed")
    }
}

impl std::error::Error for AllocError {}

/// The error that an allocation failed while `value` was added to a collection. The error returns the value.
pub struct AllocFailed<T> {
    pub value: T,
}

impl<T> From<AllocFailed<T>> for AllocError {
    fn from(_: AllocFailed<T>) -> AllocError {
        AllocError
    }
}
