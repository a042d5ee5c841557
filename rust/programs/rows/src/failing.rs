//! An allocator for tests, in which chosen allocations fail. It also counts the allocated blocks. It replaces the allocator of
//! crates/rl_rows, which is `unsafe`.

use crate::rattle_std::alloc::Allocator;
use core::cell::Cell;
use core::cmp::Ordering;
use core::hash::{Hash, Hasher};

#[derive(Debug)]
pub struct Failing<B: Allocator> {
    inner: B,
    first: Cell<u64>,
    last: Cell<u64>,
    asked: Cell<u64>,
    held: Cell<u64>,
}

impl<B: Allocator> Failing<B> {
    pub fn new(inner: B) -> Failing<B> {
        Failing {
            inner,
            first: Cell::new(1),
            last: Cell::new(0),
            asked: Cell::new(0),
            held: Cell::new(0),
        }
    }

    /// Makes the allocations from number `first` to number `last` fail from now on. The next allocation has number 1.
    pub fn fail_from_to(&self, first: u64, last: u64) {
        self.first.set(first);
        self.last.set(last);
        self.asked.set(0);
    }

    /// Makes no allocation fail from now on. Returns the number of allocations that were requested since the call of `fail`.
    pub fn stop_failing(&self) -> u64 {
        let asked = self.asked.get();
        self.fail_from_to(1, 0);
        asked
    }

    /// Returns the number of blocks of lists, texts, sets and maps that were allocated and not yet freed.
    pub fn blocks_in_use(&self) -> u64 {
        self.held.get()
    }
}

impl<B: Allocator> Allocator for &Failing<B> {
    fn grants(&self) -> bool {
        let asked = self.asked.get().saturating_add(1);
        self.asked.set(asked);
        !(self.first.get() <= asked && asked <= self.last.get()) && self.inner.grants()
    }

    fn takes(&self) {
        self.held.set(self.held.get().saturating_add(1));
        self.inner.takes();
    }

    fn gives_back(&self) {
        self.held.set(self.held.get().wrapping_sub(1));
        self.inner.gives_back();
    }
}

impl<B: Allocator> PartialEq for Failing<B> {
    fn eq(&self, other: &Self) -> bool {
        core::ptr::eq(self, other)
    }
}

impl<B: Allocator> Eq for Failing<B> {}

impl<B: Allocator> PartialOrd for Failing<B> {
    fn partial_cmp(&self, other: &Self) -> Option<Ordering> {
        Some(self.cmp(other))
    }
}

impl<B: Allocator> Ord for Failing<B> {
    fn cmp(&self, other: &Self) -> Ordering {
        core::ptr::from_ref(self).cmp(&core::ptr::from_ref(other))
    }
}

impl<B: Allocator> Hash for Failing<B> {
    fn hash<H: Hasher>(&self, state: &mut H) {
        core::ptr::from_ref(self).hash(state);
    }
}
