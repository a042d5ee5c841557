// Rendered from crates/rl_restyle/src/slices.rt by tools/render, which erases contracts: change that file, and render again.
//! Returns slices of texts by byte offsets.

pub fn between(text: &str, lo: usize, hi: usize) -> &str {
    &text[lo..hi]
}
