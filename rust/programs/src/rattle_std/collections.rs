//! A replacement for Rattle's `std::collections`: an ordered set, and a hash map for the program `rl_rows`.
//!
//! If an insertion fails, the error returns the item, and the collection is unchanged. Inserting an item that is already present
//! needs no memory. It is more limited than Rattle's module: a set has only `insert`, a map has only `insert` and lookups by key,
//! and they allocate memory at other insertions than Rattle's.

use super::alloc::{asks, AllocFailed, Allocator, Global};
use super::hash::{BuildHasherDefault, FoldHasher};
use core::hash::Hash;
use std::vec::Vec;

/// A hash map.
pub struct HashMap<K, V, S = BuildHasherDefault<FoldHasher>, A: Allocator = Global> {
    map: std::collections::HashMap<K, V, S>,
    alloc: A,
}

impl<K, V, S, A: Allocator> Drop for HashMap<K, V, S, A> {
    fn drop(&mut self) {
        if self.map.capacity() > 0 {
            self.alloc.gives_back();
        }
    }
}

impl<K: Eq + Hash, V, A: Allocator> HashMap<K, V, BuildHasherDefault<FoldHasher>, A> {
    pub fn new(alloc: A) -> Self {
        HashMap {
            map: std::collections::HashMap::default(),
            alloc,
        }
    }

    pub fn len(&self) -> usize {
        self.map.len()
    }

    pub fn is_empty(&self) -> bool {
        self.map.is_empty()
    }

    /// Sets the value of a key. Returns the key's previous value, if it had one.
    pub fn insert(&mut self, key: K, value: V) -> Result<Option<V>, AllocFailed<(K, V)>> {
        let room = self.map.capacity();
        if self.map.len() == room
            && !self.map.contains_key(&key)
            && !asks(&self.alloc, room > 0, || self.map.try_reserve(1))
        {
            return Err(AllocFailed {
                value: (key, value),
            });
        }
        Ok(self.map.insert(key, value))
    }

    pub fn get(&self, key: &K) -> Option<&V> {
        self.map.get(key)
    }

    pub fn get_key_value(&self, key: &K) -> Option<(&K, &V)> {
        self.map.get_key_value(key)
    }
}

/// The largest number of items in a row of a `BTreeSet`.
const ROW: usize = 256;

/// An ordered set. Its items are in rows that aren't empty. Each row is ordered, and its items are less than those of the next row.
/// Rust's own set isn't used, because its insertion can't report a failed allocation.
pub struct BTreeSet<T: Ord, A: Allocator = Global> {
    rows: Vec<Vec<T>>,
    alloc: A,
}

impl<T: Ord, A: Allocator> BTreeSet<T, A> {
    pub fn new(alloc: A) -> BTreeSet<T, A> {
        BTreeSet {
            rows: Vec::new(),
            alloc,
        }
    }

    /// Inserts the item. Returns `true` if it wasn't already present.
    pub fn insert(&mut self, item: T) -> Result<bool, AllocFailed<T>> {
        let above = self.rows.partition_point(|row| row[0] <= item);
        let Some(at) = above
            .checked_sub(1)
            .or_else(|| self.rows.first().map(|_| 0))
        else {
            return self.begin(item);
        };
        let row = &mut self.rows[at];
        let Err(place) = row.binary_search(&item) else {
            return Ok(false);
        };
        if row.len() < ROW {
            if row.len() == row.capacity() && !asks(&self.alloc, true, || row.try_reserve(1)) {
                return Err(AllocFailed { value: item });
            }
            row.insert(place, item);
            return Ok(true);
        }
        let Some(mut upper) = self.another(ROW) else {
            return Err(AllocFailed { value: item });
        };
        let row = &mut self.rows[at];
        upper.extend(row.drain(ROW / 2..));
        if place <= ROW / 2 {
            row.insert(place, item);
        } else {
            upper.insert(place - ROW / 2, item);
        }
        self.rows.insert(at + 1, upper);
        Ok(true)
    }

    fn begin(&mut self, item: T) -> Result<bool, AllocFailed<T>> {
        let Some(mut row) = self.another(1) else {
            return Err(AllocFailed { value: item });
        };
        row.push(item);
        self.rows.push(row);
        Ok(true)
    }

    /// Creates an empty row for `count` items, and reserves memory for one more row in the list of rows.
    fn another(&mut self, count: usize) -> Option<Vec<T>> {
        let mut row = Vec::new();
        let reserve = || {
            row.try_reserve(count)?;
            self.rows.try_reserve(1)
        };
        asks(&self.alloc, false, reserve).then_some(row)
    }
}

impl<T: Ord, A: Allocator> Drop for BTreeSet<T, A> {
    fn drop(&mut self) {
        for _ in &self.rows {
            self.alloc.gives_back();
        }
    }
}
