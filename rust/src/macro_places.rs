//! Spans of procedural macros that can be moved to other threads as part of an error.
//!
//! A span of rustc belongs to the thread of its macro. So each thread keeps its spans in a table, and an error has only the index
//! of a row of this table.

use alloc::sync::Arc;
use alloc::vec::Vec;
use core::cell::RefCell;
use proc_macro::Span;
use std::thread::{self, ThreadId};

/// The table of one thread: in each row the first and the last span of an error's tokens. `free` has the indices of unused rows.
struct Table {
    rows: Vec<(Span, Span)>,
    free: Vec<usize>,
}

std::thread_local! {
    static TABLE: RefCell<Table> = const { RefCell::new(Table { rows: Vec::new(), free: Vec::new() }) };
}

/// The index of a row in the table of the thread `thread`. Dropping it frees the row.
struct Row {
    at: usize,
    thread: ThreadId,
}

impl Drop for Row {
    #[inline]
    fn drop(&mut self) {
        if self.thread == thread::current().id() {
            // If the thread is ending, its table may no longer exist.
            let _ = TABLE.try_with(|table| table.borrow_mut().free.push(self.at));
        }
    }
}

/// The tokens of an error, as a first and a last span.
#[derive(Clone)]
pub(crate) struct Place(Arc<Row>);

impl Place {
    #[inline]
    pub(crate) fn between(first: Span, last: Span) -> Place {
        let at = TABLE.with(|table| {
            let mut table = table.borrow_mut();
            match table.free.pop() {
                Some(at) => {
                    table.rows[at] = (first, last);
                    at
                }
                None => {
                    table.rows.push((first, last));
                    table.rows.len() - 1
                }
            }
        });
        let thread = thread::current().id();
        Place(Arc::new(Row { at, thread }))
    }

    /// Returns the first and the last span. On another thread than the macro's, both are the span of the macro's call.
    #[inline]
    pub(crate) fn spans(&self) -> (Span, Span) {
        if self.0.thread == thread::current().id() {
            TABLE.with(|table| table.borrow().rows[self.0.at])
        } else {
            (Span::call_site(), Span::call_site())
        }
    }
}
