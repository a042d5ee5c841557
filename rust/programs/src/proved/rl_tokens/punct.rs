// Rendered from crates/rl_tokens/src/punct.rt by tools/render, which erases contracts: change that file, and render again.
//! Punctuation tokens.

use crate::rl_syntax::Span;

pub struct Punct {
    ch: char,
    span: Span,
}

impl Punct {
    pub fn new(ch: char, span: Span) -> Punct {
        Punct { ch, span }
    }

    pub fn is_char(ch: char) -> bool {
        matches!(
            ch,
            '~' | '!'
                | '@'
                | '#'
                | '$'
                | '%'
                | '^'
                | '&'
                | '*'
                | '-'
                | '='
                | '+'
                | '|'
                | ';'
                | ':'
                | ','
                | '<'
                | '.'
                | '>'
                | '/'
                | '?'
        )
    }

    pub fn as_char(&self) -> char {
        self.ch
    }

    pub fn span(&self) -> Span {
        self.span
    }

    pub fn set_span(&mut self, span: Span) {
        self.span = span;
    }
}

pub(crate) fn word_of(ch: char) -> &'static str {
    match ch {
        '~' => "`~`",
        '!' => "`!`",
        '@' => "`@`",
        '#' => "`#`",
        '$' => "`$`",
        '%' => "`%`",
        '^' => "`^`",
        '&' => "`&`",
        '*' => "`*`",
        '-' => "`-`",
        '=' => "`=`",
        '+' => "`+`",
        '|' => "`|`",
        ';' => "`;`",
        ':' => "`:`",
        ',' => "`,`",
        '<' => "`<`",
        '.' => "`.`",
        '>' => "`>`",
        '/' => "`/`",
        _ => "`?`",
    }
}
