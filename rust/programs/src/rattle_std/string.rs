//! A replacement for Rattle's `std::string`: texts whose growth may fail. After a failed call the text is unchanged.
//!
//! A text allocates memory at the same calls as in Rattle, except in formatting, where Rust may write the parts of a number in
//! fewer pieces. It is more limited than Rattle's module: a text can't be cloned, and `from_utf8` drops bytes that aren't UTF-8,
//! while Rattle's error returns them.

use super::alloc::{asks, may_hold, AllocError, Allocator, Global};
use super::vec::Vec;
use core::cmp::Ordering;
use core::fmt;
use core::hash::{Hash, Hasher};
use core::mem::take;
use core::ops::Deref;

/// A text whose memory belongs to an allocator. It wraps Rust's `String`.
pub struct String<A: Allocator = Global> {
    text: std::string::String,
    alloc: A,
}

impl<A: Allocator> String<A> {
    /// Creates an empty text, without an allocation.
    #[inline(always)]
    pub fn new(alloc: A) -> String<A> {
        String {
            text: std::string::String::new(),
            alloc,
        }
    }

    /// Creates an empty text with a capacity of `len` bytes. If `len` is 0, nothing is allocated.
    pub fn with_capacity(alloc: A, len: usize) -> Result<String<A>, AllocError> {
        let mut made = String::new(alloc);
        let reserved = len == 0
            || may_hold::<u8>(Some(len))
                && asks(&made.alloc, false, || made.text.try_reserve_exact(len));
        if reserved {
            Ok(made)
        } else {
            Err(AllocError)
        }
    }

    /// Reserves memory for `count` more bytes. Returns whether there is enough memory.
    #[inline(always)]
    fn makes_room(&mut self, count: usize) -> bool {
        self.text.capacity() - self.text.len() >= count || self.grows(count)
    }

    #[inline(never)]
    fn grows(&mut self, count: usize) -> bool {
        let holds = self.text.capacity() > 0;
        may_hold::<u8>(self.text.len().checked_add(count))
            && asks(&self.alloc, holds, || self.text.try_reserve(count))
    }

    /// Copies the text to memory of the allocator.
    pub fn from_str(alloc: A, text: &str) -> Result<String<A>, AllocError> {
        let mut copy = String::with_capacity(alloc, text.len())?;
        copy.text.push_str(text);
        Ok(copy)
    }

    /// Converts bytes to a text, in the same block of memory. They must be UTF-8.
    pub fn from_utf8(bytes: Vec<u8, A>) -> Result<String<A>, core::str::Utf8Error> {
        let (bytes, alloc) = bytes.into_parts();
        match std::string::String::from_utf8(bytes) {
            Ok(text) => Ok(String { text, alloc }),
            Err(error) => {
                let why = error.utf8_error();
                drop(Vec::of(error.into_bytes(), alloc));
                Err(why)
            }
        }
    }

    /// Converts bytes to a text. In Rattle this call needs a proof that they are UTF-8. Here they are checked.
    pub fn from_utf8_unchecked(bytes: Vec<u8, A>) -> String<A> {
        let (bytes, alloc) = bytes.into_parts();
        match std::string::String::from_utf8(bytes) {
            Ok(text) => String { text, alloc },
            Err(_) => unreachable!("it is proved that the bytes are a text"),
        }
    }

    /// Appends the character.
    #[inline(always)]
    pub fn push(&mut self, c: char) -> Result<(), AllocError> {
        if !self.makes_room(c.len_utf8()) {
            return Err(AllocError);
        }
        self.text.push(c);
        Ok(())
    }

    /// Appends the whole text, or nothing after a failed allocation.
    #[inline(always)]
    pub fn push_str(&mut self, text: &str) -> Result<(), AllocError> {
        if !self.makes_room(text.len()) {
            return Err(AllocError);
        }
        self.text.push_str(text);
        Ok(())
    }

    /// Drops the bytes after the first `len`, and keeps the capacity. A character must end at `len`.
    pub fn truncate(&mut self, len: usize) {
        self.text.truncate(len);
    }

    /// Drops all bytes, and keeps the capacity.
    pub fn clear(&mut self) {
        self.text.clear();
    }

    #[inline(always)]
    pub fn as_str(&self) -> &str {
        &self.text
    }

    /// Converts the text to its bytes, in the same block of memory.
    pub fn into_bytes(mut self) -> Vec<u8, A> {
        Vec::of(take(&mut self.text).into_bytes(), self.alloc)
    }

    /// Appends formatted text, for `write!` and `writeln!`. It appends everything or nothing. An error of a value's own `fmt`
    /// counts as a failed allocation.
    pub fn write_fmt(&mut self, text: fmt::Arguments<'_>) -> Result<(), AllocError> {
        let len = self.text.len();
        match fmt::write(&mut Pushed(self), text) {
            Ok(()) => Ok(()),
            Err(fmt::Error) => {
                self.text.truncate(len);
                Err(AllocError)
            }
        }
    }
}

impl<A: Allocator> Drop for String<A> {
    #[inline(always)]
    fn drop(&mut self) {
        if self.text.capacity() > 0 {
            self.alloc.gives_back();
        }
    }
}

/// A writer that appends to a text. Its only error is a failed allocation.
struct Pushed<'a, A: Allocator>(&'a mut String<A>);

impl<A: Allocator> fmt::Write for Pushed<'_, A> {
    #[inline]
    fn write_str(&mut self, text: &str) -> fmt::Result {
        self.0.push_str(text).map_err(|_| fmt::Error)
    }
}

/// Creates a formatted text, for `format!(in alloc; ..)`.
pub fn formatted<A: Allocator>(
    alloc: A,
    text: fmt::Arguments<'_>,
) -> Result<String<A>, AllocError> {
    let mut made = String::new(alloc);
    made.write_fmt(text)?;
    Ok(made)
}

impl<A: Allocator> Deref for String<A> {
    type Target = str;

    #[inline(always)]
    fn deref(&self) -> &str {
        &self.text
    }
}

impl<A: Allocator> PartialEq for String<A> {
    fn eq(&self, other: &Self) -> bool {
        self.text == other.text
    }
}

impl<A: Allocator> Eq for String<A> {}

impl<A: Allocator> PartialOrd for String<A> {
    fn partial_cmp(&self, other: &Self) -> Option<Ordering> {
        Some(self.cmp(other))
    }
}

impl<A: Allocator> Ord for String<A> {
    fn cmp(&self, other: &Self) -> Ordering {
        self.text.cmp(&other.text)
    }
}

impl<A: Allocator> Hash for String<A> {
    fn hash<H: Hasher>(&self, state: &mut H) {
        self.text.hash(state);
    }
}

impl<A: Allocator> fmt::Display for String<A> {
    fn fmt(&self, f: &mut fmt::Formatter<'_>) -> fmt::Result {
        self.text.fmt(f)
    }
}

impl<A: Allocator> fmt::Debug for String<A> {
    fn fmt(&self, f: &mut fmt::Formatter<'_>) -> fmt::Result {
        self.text.fmt(f)
    }
}
