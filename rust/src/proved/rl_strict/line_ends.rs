// Rendered from crates/rl_strict/src/line_ends.rt by tools/render, which erases contracts: change that file, and render again.
//! The two ways to read a CR LF in the text of a literal.

#[derive(Clone, Copy)]
pub enum LineEnds {
    Text,
    File,
}
