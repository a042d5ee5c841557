// Rendered from crates/rl_files/src/path_texts.rt by tools/render, which erases contracts: change that file, and render again.
//! Represents paths as texts. A path that isn't UTF-8 is represented by its escaped bytes and a NUL, which no path contains.

use crate::rattle_std::prelude::{String};
use crate::rattle_std::alloc::{AllocError, Allocator};

fn push_byte<A: Allocator>(out: &mut String<A>, byte: u8) -> Result<(), AllocError> {
    if byte >= b' ' && byte < 127 && byte != b'\\' {
        out.push(char::from(byte))?;
        return Ok(());
    }
    write!(out, "\\x{byte:02x}")
}

pub(crate) fn escaped<A: Allocator>(alloc: A, bytes: &[u8]) -> Result<String<A>, AllocError> {
    let mut text = String::new(alloc);
    let mut rest = bytes;
    while let [byte, after @ ..] = rest {
        push_byte(&mut text, *byte)?;
        rest = after;
    }
    Ok(text)
}

pub fn path_text<A: Allocator>(alloc: A, bytes: &[u8]) -> Result<String<A>, AllocError> {
    match crate::rattle_std::str::from_utf8(bytes) {
        Ok(text) => String::from_str(alloc, text),
        Err(_) => {
            let mut text = escaped(alloc, bytes)?;
            text.push('\0')?;
            Ok(text)
        }
    }
}

pub fn escaped_non_utf8_path(text: &str) -> Option<&str> {
    let end = text.len();
    if end == 0 || text.as_bytes()[end - 1] != 0 {
        return None;
    }
    Some(&text[..end - 1])
}
