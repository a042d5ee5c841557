// Rendered from crates/rl_fronts/src/span_table.rt by tools/render, which erases contracts: change that file, and render again.
//! A table of the spans from which the bytes of a quoted literal's decoded value come.

use crate::rattle_std::prelude::{Vec};
use crate::rl_cursors::{Segment, Segments};
use crate::rl_tokens::Span;
use crate::rattle_std::alloc::{AllocError, Allocator};

fn push_spans<A: Allocator>(
    spans: &mut Vec<Span, A>,
    base: Span,
    segment: Segment<'_>,
) -> Result<(), AllocError> {
    for i in 0..segment.value.len() {
        spans.push(Span {
            file: base.file,
            lo: base.lo + segment.text_offset(i),
            hi: base.lo + segment.text_offset_after(i),
        })?;
    }
    Ok(())
}

pub fn value_byte_spans<A: Allocator>(
    alloc: A,
    mut segments: Segments<'_>,
    base: Span,
) -> Result<Vec<Span, A>, AllocError> {
    let mut spans = Vec::new(alloc);
    while let Some(segment) = segments.next() {
        push_spans(&mut spans, base, segment)?;
    }
    let end = base.lo + segments.next_offset();
    spans.push(Span {
        file: base.file,
        lo: end,
        hi: end,
    })?;
    Ok(spans)
}
