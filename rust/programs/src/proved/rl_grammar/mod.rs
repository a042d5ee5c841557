// Rendered from crates/rl_grammar/src/lib.rt by tools/render, which erases contracts: change that file, and render again.
//! Functions that examine one text: whether it is a literal, its kind, its parts and its value, or the reason why it
//! isn't a literal. The crate is modelled on the module `value` in `src/lit.rs` of the crate `syn` 3.0.9, and on the
//! Rust Reference. Most items are defined in the crates `rl_cursors`, `rl_fronts`, `rl_lenient`, `rl_strict` and
//! `rl_syntax`, and are re-exported here.

pub mod strict;

pub use crate::rl_cursors::{
    ListLiterals, ListStep, NextLiteral, Rejection, RejectionKind, Segment, SegmentValue, Segments,
    SourceStep, next_list_literal, next_literal, next_source_literal, text_offset, text_range,
};
pub use crate::rl_fronts::{
    Front, Negative, begins_with_kind, bytes_of, bytes_of_body, digits_of, digits_of_found, str_of,
    str_of_body, take_literal_of_kind, value_byte_spans,
};
pub use crate::rl_lenient::{
    Body, FloatParts, Found, IntegerParts, Parts, bool_of, byte_of, byte_of_body, char_of,
    char_of_body, decode_bytes_into, decode_str_into, float_digits_into, float_parts, float_shape,
    int_shape, integer_parts, is_plain, parse_float_literal, parse_int_literal, parse_literal,
    parse_with_added_minus, shape, shape_negative,
};
pub use crate::rl_strict::{
    Flaw, FlawKind, LineEnds, explain, explain_missing_value, flaw_above_128_bits,
    is_float_by_suffix,
};
pub use crate::rl_syntax::Kind;
