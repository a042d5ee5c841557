// Rendered from crates/rl_syntax/src/slice_writer.rt by tools/render, which erases contracts: change that file, and render again.
//! Writers of bytes into a slice that the caller passes.
//!
//! Each function's parameter `at` is the number of bytes that the slice `out` already holds. The result is the number
//! of bytes that it holds afterwards. Nothing is allocated.

#[inline(always)]
pub fn put(out: &mut [u8], at: usize, bytes: &[u8]) -> usize {
    let end = at + bytes.len();
    out[at..end].copy_from_slice(bytes);
    end
}

#[inline(always)]
pub fn put_byte(out: &mut [u8], at: usize, byte: u8) -> usize {
    out[at] = byte;
    at + 1
}

#[inline(always)]
pub fn put_text(out: &mut [u8], at: usize, text: &str) -> usize {
    put(out, at, text.as_bytes())
}

#[inline(always)]
pub fn put_char(out: &mut [u8], at: usize, c: char) -> usize {
    put_text(out, at, c.encode_utf8(&mut [0; 4]))
}
