//! A replacement for Rattle's `std::vec`: lists whose growth may fail. After a failed call the list is unchanged.
//!
//! A list allocates memory at the same calls as in Rattle, and the same number of bytes. It is more limited than Rattle's module:
//! items are copied only if they are `Copy`, and a list can't be cloned or sorted.

use super::alloc::{asks, may_hold, AllocError, AllocFailed, Allocator, Global};
use core::cmp::Ordering;
use core::fmt;
use core::mem::take;
use core::ops::{Deref, DerefMut};

/// A list whose memory belongs to an allocator. It wraps Rust's `Vec`.
pub struct Vec<T, A: Allocator = Global> {
    pub(super) items: std::vec::Vec<T>,
    alloc: A,
}

impl<T, A: Allocator> Vec<T, A> {
    /// Creates an empty list, without an allocation.
    #[inline(always)]
    pub fn new(alloc: A) -> Vec<T, A> {
        Vec {
            items: std::vec::Vec::new(),
            alloc,
        }
    }

    /// Creates a list of these items. Their block of memory came from the allocator.
    #[inline(always)]
    pub(super) fn of(items: std::vec::Vec<T>, alloc: A) -> Vec<T, A> {
        Vec { items, alloc }
    }

    /// Returns the items in their block of memory, and the allocator that it came from.
    #[inline(always)]
    pub(super) fn into_parts(mut self) -> (std::vec::Vec<T>, A) {
        (take(&mut self.items), self.alloc)
    }

    /// Creates an empty list with a capacity of `count` items. If `count` is 0, nothing is allocated.
    pub fn with_capacity(alloc: A, count: usize) -> Result<Vec<T, A>, AllocError> {
        let mut list = Vec::new(alloc);
        if count > 0 && !list.grows_exactly(count) {
            return Err(AllocError);
        }
        Ok(list)
    }

    /// Reserves memory for `count` more items. Returns whether there is enough memory.
    #[inline(always)]
    pub(super) fn makes_room(&mut self, count: usize) -> bool {
        self.items.capacity() - self.items.len() >= count || self.grows(count)
    }

    /// Reserves memory for `count` more items, or for as many more as the list has, if that is more. Returns whether there is
    /// enough memory.
    #[inline(never)]
    pub(super) fn grows(&mut self, count: usize) -> bool {
        let holds = self.has_block();
        may_hold::<T>(self.items.len().checked_add(count))
            && asks(&self.alloc, holds, || self.items.try_reserve(count))
    }

    /// Reserves memory for exactly `count` more items. Returns whether there is enough memory.
    pub(super) fn grows_exactly(&mut self, count: usize) -> bool {
        let holds = self.has_block();
        may_hold::<T>(self.items.len().checked_add(count))
            && asks(&self.alloc, holds, || self.items.try_reserve_exact(count))
    }

    fn has_block(&self) -> bool {
        size_of::<T>() > 0 && self.items.capacity() > 0
    }

    /// Appends the item. If the allocation fails, the error returns the item.
    #[inline(always)]
    pub fn push(&mut self, item: T) -> Result<(), AllocFailed<T>> {
        if !self.makes_room(1) {
            return Err(AllocFailed { value: item });
        }
        self.items.push(item);
        Ok(())
    }

    pub fn allocator(&self) -> &A {
        &self.alloc
    }

    /// Removes and returns the last item.
    pub fn pop(&mut self) -> Option<T> {
        self.items.pop()
    }

    pub fn as_slice(&self) -> &[T] {
        &self.items
    }

    pub fn as_mut_slice(&mut self) -> &mut [T] {
        &mut self.items
    }

    /// Drops the items after the first `len`, and keeps the capacity.
    pub fn truncate(&mut self, len: usize) {
        self.items.truncate(len);
    }
}

impl<T, A: Allocator> Drop for Vec<T, A> {
    #[inline(always)]
    fn drop(&mut self) {
        if self.has_block() {
            self.alloc.gives_back();
        }
    }
}

impl<T: Copy, A: Allocator> Vec<T, A> {
    /// Copies the items to a new list.
    pub fn from_slice(alloc: A, items: &[T]) -> Result<Vec<T, A>, AllocError> {
        let mut list = Vec::with_capacity(alloc, items.len())?;
        list.items.extend_from_slice(items);
        Ok(list)
    }

    /// Creates a list of `count` copies of a value, for `vec![in alloc; value; count]`.
    ///
    /// The block of the test for memory is freed, since `vec!` takes large blocks of zeros from the system without writing to them.
    pub fn filled(alloc: A, value: T, count: usize) -> Result<Vec<T, A>, AllocError> {
        let mut list = Vec::with_capacity(alloc, count)?;
        drop(core::hint::black_box(take(&mut list.items)));
        list.items = std::vec![value; count];
        Ok(list)
    }

    /// Appends all these items, or none after a failed allocation.
    #[inline(always)]
    pub fn extend_from_slice(&mut self, items: &[T]) -> Result<(), AllocError> {
        if !self.makes_room(items.len()) {
            return Err(AllocError);
        }
        self.items.extend_from_slice(items);
        Ok(())
    }
}

impl<T, A: Allocator> Deref for Vec<T, A> {
    type Target = [T];

    #[inline(always)]
    fn deref(&self) -> &[T] {
        &self.items
    }
}

impl<T, A: Allocator> DerefMut for Vec<T, A> {
    #[inline(always)]
    fn deref_mut(&mut self) -> &mut [T] {
        &mut self.items
    }
}

impl<T: PartialEq, A: Allocator> PartialEq for Vec<T, A> {
    fn eq(&self, other: &Self) -> bool {
        self.items == other.items
    }
}

impl<T: Eq, A: Allocator> Eq for Vec<T, A> {}

impl<T: PartialOrd, A: Allocator> PartialOrd for Vec<T, A> {
    fn partial_cmp(&self, other: &Self) -> Option<Ordering> {
        self.items.partial_cmp(&other.items)
    }
}

impl<T: Ord, A: Allocator> Ord for Vec<T, A> {
    fn cmp(&self, other: &Self) -> Ordering {
        self.items.cmp(&other.items)
    }
}

impl<T: fmt::Debug, A: Allocator> fmt::Debug for Vec<T, A> {
    fn fmt(&self, f: &mut fmt::Formatter<'_>) -> fmt::Result {
        self.items.fmt(f)
    }
}

impl<T, A: Allocator> IntoIterator for Vec<T, A> {
    type Item = T;
    type IntoIter = IntoIter<T, A>;

    fn into_iter(self) -> IntoIter<T, A> {
        let holds = self.has_block();
        let (items, alloc) = self.into_parts();
        IntoIter {
            items: items.into_iter(),
            holds,
            alloc,
        }
    }
}

/// An iterator over the items of a list. It keeps the list's block of memory.
pub struct IntoIter<T, A: Allocator = Global> {
    items: std::vec::IntoIter<T>,
    holds: bool,
    alloc: A,
}

impl<T, A: Allocator> Drop for IntoIter<T, A> {
    fn drop(&mut self) {
        if self.holds {
            self.alloc.gives_back();
        }
    }
}

impl<T, A: Allocator> Iterator for IntoIter<T, A> {
    type Item = T;

    fn next(&mut self) -> Option<T> {
        self.items.next()
    }
}

impl<T, A: Allocator> IntoIter<T, A> {
    /// Collects the remaining items in a list. It is the only method of Rattle's iterators that allocates memory, so it is defined
    /// here.
    pub fn collect<B: Allocator>(mut self, alloc: B) -> Result<Vec<T, B>, AllocError> {
        let mut list = Vec::with_capacity(alloc, self.items.len())?;
        list.items.extend(take(&mut self.items));
        Ok(list)
    }
}
