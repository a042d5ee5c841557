// Rendered from crates/rl_syntax/src/text.rt by tools/render, which erases contracts: change that file, and render again.
//! Functions that split the first characters off a text, and tests of a text's start.

pub fn split_char(text: &str) -> Option<(char, &str)> {
    let mut chars = text.chars();
    let first = chars.next()?;
    Some((first, chars.as_str()))
}

#[inline(always)]
pub fn split_ascii(text: &str) -> Option<(u8, &str)> {
    let bytes = text.as_bytes();
    if bytes.is_empty() || bytes[0] >= 128 {
        return None;
    }
    Some((bytes[0], crate::slices::after_first!(text)))
}

#[inline(always)]
pub fn ascii_at(text: &str, at: usize) -> Option<(u8, usize)> {
    let bytes = text.as_bytes();
    if at >= bytes.len() || bytes[at] >= 128 {
        return None;
    }
    Some((bytes[at], at + 1))
}

pub fn begins_with_char(text: &str, c: char) -> bool {
    match split_char(text) {
        Some((first, _)) => first == c,
        None => false,
    }
}

pub fn begins(text: &str, word: &str) -> bool {
    text.starts_with(word)
}

pub fn without_first_char(text: &str) -> &str {
    match split_char(text) {
        Some((_, rest)) => rest,
        None => text,
    }
}

#[inline(always)]
pub fn strip_byte(text: &str, byte: u8) -> Option<&str> {
    match split_ascii(text) {
        Some((first, following)) if first == byte => Some(following),
        _ => None,
    }
}

pub fn before<'t>(text: &'t str, rest: &str) -> &'t str {
    &text[..text.len() - rest.len()]
}

pub fn after_prefix<'t>(prefix: &str, text: &'t str) -> Option<&'t str> {
    text.strip_prefix(prefix)
}
