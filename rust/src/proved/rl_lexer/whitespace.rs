// Rendered from crates/rl_lexer/src/whitespace.rt by tools/render, which erases contracts: change that file, and render again.
//! Functions that skip white space and plain comments. Plain comments are those that aren't doc comments.

use crate::rl_syntax::classes::skip_white;
use crate::rl_syntax::lanes::byte_at;
use crate::rl_syntax::lines::after_first_line_feed;
use crate::rl_syntax::scan::{Marks, len_before_near_mark};
use crate::rl_syntax::text::{begins_with_char, split_ascii, strip_byte};

#[inline(always)]
pub fn skip(text: &str) -> &str {
    let rest = skip_white(text);
    let Some(_) = strip_byte(rest, b'/') else {
        return rest;
    };
    skip_comments(rest)
}

#[inline(never)]
fn skip_comments(text: &str) -> &str {
    let mut rest = text;
    while let Some(inside) = strip_byte(rest, b'/') {
        let Some(following) = after_comment(inside) else {
            return rest;
        };
        rest = skip_white(following);
    }
    rest
}

#[cfg_attr(debug_assertions, inline)]
#[cfg_attr(not(debug_assertions), inline(always))]
fn after_comment(text: &str) -> Option<&str> {
    let Some((second, following)) = split_ascii(text) else {
        return None;
    };
    if second == b'/' && is_comment_line(following) {
        Some(after_line(following))
    } else if second == b'*' && is_comment_block(following) {
        after_block(following)
    } else {
        None
    }
}

#[inline(always)]
pub(crate) fn is_comment_line(body: &str) -> bool {
    match split_ascii(body) {
        Some((first, following)) => first != b'!'
            && (first != b'/' || begins_with_char(following, '/')),
        None => true,
    }
}

#[cfg_attr(debug_assertions, inline)]
#[cfg_attr(not(debug_assertions), inline(always))]
pub(crate) fn is_comment_block(inside: &str) -> bool {
    match split_ascii(inside) {
        Some((first, following)) => {
            first != b'!'
                && (first != b'*'
                    || begins_with_char(following, '/')
                    || begins_with_char(following, '*'))
        }
        None => true,
    }
}

pub(crate) fn after_line(text: &str) -> &str {
    after_first_line_feed(text).unwrap_or("")
}

#[cfg_attr(debug_assertions, inline)]
#[cfg_attr(not(debug_assertions), inline(always))]
pub(crate) fn after_block(text: &str) -> Option<&str> {
    let bytes = text.as_bytes();
    let mut depth: usize = 0;
    let mut at: usize = 0;
    while at < bytes.len() {
        let byte = bytes[at];
        at += 1;
        if byte == b'*' {
            if byte_at(bytes, at) == b'/' {
                at += 1;
                if depth == 0 {
                    return Some(&text[at..]);
                }
                depth -= 1;
            }
        } else if byte == b'/' {
            if byte_at(bytes, at) == b'*' {
                at += 1;
                depth += 1;
            }
        } else {
            at += len_before_near_mark(Marks::from_two_bytes(b'*', b'/'), &bytes[at..]);
        }
    }
    None
}
