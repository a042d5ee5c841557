// Rendered from crates/rl_syntax/src/span.rt by tools/render, which erases contracts: change that file, and render again.
//! Spans: the byte ranges of tokens in files.

#[derive(Clone, Copy, PartialEq, Eq, Debug)]
pub struct Span {
    pub file: u32,
    pub lo: usize,
    pub hi: usize,
}

fn entry_at(table: &[Span], at: usize) -> Span {
    if table.is_empty() {
        return Span::call_site();
    }
    table[at.min(table.len() - 1)]
}

impl Span {
    pub fn call_site() -> Span {
        Span {
            file: 0,
            lo: 0,
            hi: 0,
        }
    }

    pub fn new(file: u32, lo: usize, hi: usize) -> Span {
        Span { file, lo, hi }
    }

    pub fn file(self) -> u32 {
        self.file
    }

    pub fn lo(self) -> usize {
        self.lo
    }

    pub fn hi(self) -> usize {
        self.hi
    }

    pub fn mapped_by_byte_spans(self, table: &[Span]) -> Span {
        let first = entry_at(table, self.lo);
        let hi = if self.lo < self.hi {
            entry_at(table, self.hi - 1).hi
        } else {
            first.lo
        };
        Span {
            file: first.file,
            lo: first.lo,
            hi,
        }
    }

    pub fn join(self, other: Span) -> Option<Span> {
        if self.file != other.file {
            return None;
        }
        Some(Span {
            file: self.file,
            lo: self.lo.min(other.lo),
            hi: self.hi.max(other.hi),
        })
    }
}
