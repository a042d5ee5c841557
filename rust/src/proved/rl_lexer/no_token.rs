// Rendered from crates/rl_lexer/src/no_token.rt by tools/render, which erases contracts: change that file, and render again.
//! Functions that return the kind of the lexer's error at a text that begins with no token.

use crate::rl_lexer::lex_error::LexKind;
use crate::rl_lexer::lexeme::{begins_hashed_quote, begins_marked_identifier};
use crate::rl_syntax::characters::is_id_start;
use crate::rl_syntax::kind::{BYTE_OPENER, BYTE_STR_OPENER, C_STR_OPENER, CHAR_OPENER, STR_OPENER};
use crate::rl_syntax::text::{begins, begins_with_char, split_char};

pub(crate) fn error_kind(rest: &str) -> LexKind {
    if begins_doc_comment(rest) {
        LexKind::DocComment
    } else if begins(rest, "/*") {
        LexKind::UnclosedComment
    } else if begins_quote(rest) {
        LexKind::UnclosedQuote
    } else if begins_lifetime(rest) {
        LexKind::Lifetime
    } else if begins_raw_identifier(rest) {
        LexKind::RawIdentifier
    } else {
        LexKind::StrayCharacter
    }
}

pub fn source_error_kind(rest: &str) -> LexKind {
    if begins(rest, "/*") {
        LexKind::UnclosedComment
    } else {
        LexKind::UnclosedQuote
    }
}

pub(crate) fn opens(text: &str) -> bool {
    begins(text, "/*") || (begins_quote(text) || begins_with_char(text, '\''))
}

fn begins_doc_comment(text: &str) -> bool {
    (begins(text, "///") && !begins(text, "////"))
        || begins(text, "//!")
        || (begins(text, "/**") && !(begins(text, "/**/") || begins(text, "/***")))
        || begins(text, "/*!")
}

fn begins_quote(text: &str) -> bool {
    begins(text, STR_OPENER)
        || begins(text, BYTE_STR_OPENER)
        || begins(text, C_STR_OPENER)
        || begins_raw(text)
        || begins(text, BYTE_OPENER)
        || (begins(text, CHAR_OPENER) && !begins_lifetime(text))
}

fn begins_raw(text: &str) -> bool {
    match split_char(text) {
        Some(('r', following)) => begins_hashed_quote(following),
        Some(('b' | 'c', following)) => match split_char(following) {
            Some(('r', hashes)) => begins_hashed_quote(hashes),
            _ => false,
        },
        _ => false,
    }
}

fn begins_lifetime(text: &str) -> bool {
    match split_char(text) {
        Some(('\'', following)) => match split_char(following) {
            Some((c, _)) => is_id_start(c),
            None => false,
        },
        _ => false,
    }
}

pub(crate) fn begins_raw_identifier(text: &str) -> bool {
    match split_char(text) {
        Some(('r', following)) => begins_marked_identifier(following),
        _ => false,
    }
}
