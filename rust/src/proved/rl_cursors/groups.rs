// Rendered from crates/rl_cursors/src/groups.rt by tools/render, which erases contracts: change that file, and render again.
//! Checks that each group of a text (parentheses, brackets or braces) is closed by its own delimiter, and how deep they nest.

use crate::rl_lexer::{Form, LexError, LexKind, Tokens, is_opener};

const MAX_OPEN: usize = 128;

#[derive(Clone, Copy)]
struct Opened {
    opener: char,
    at: usize,
}

struct Groups {
    groups: [Opened; MAX_OPEN],
    start: usize,
}

#[inline]
fn is_pair(opener: char, closer: char) -> bool {
    match opener {
        '(' => closer == ')',
        '[' => closer == ']',
        '{' => closer == '}',
        _ => false,
    }
}

impl Groups {
    #[inline]
    fn new() -> Groups {
        Groups {
            groups: [Opened { opener: '(', at: 0 }; MAX_OPEN],
            start: MAX_OPEN,
        }
    }

    #[inline]
    fn innermost(&self) -> Option<Opened> {
        if self.start >= MAX_OPEN {
            return None;
        }
        Some(self.groups[self.start])
    }

    #[inline]
    fn open_group(&mut self, opener: char, at: usize) -> bool {
        if self.start == 0 {
            return false;
        }
        self.start -= 1;
        self.groups[self.start] = Opened { opener, at };
        true
    }

    #[inline]
    fn close_group(&mut self, closer: char) -> bool {
        if self.start >= MAX_OPEN {
            return false;
        }
        if !is_pair(self.groups[self.start].opener, closer) {
            return false;
        }
        self.start += 1;
        true
    }

    #[inline]
    fn pass(&mut self, form: Form, at: usize) -> Option<LexKind> {
        let Form::Delimiter(c) = form else {
            return None;
        };
        if is_opener(c) {
            if self.open_group(c, at) {
                None
            } else {
                Some(LexKind::TooDeep)
            }
        } else if self.close_group(c) {
            None
        } else {
            Some(LexKind::UnmatchedClose)
        }
    }

    #[inline]
    fn error_at_end(&self) -> Option<LexError> {
        match self.innermost() {
            Some(group) => Some(LexError::new(LexKind::UnclosedGroup, group.at)),
            None => None,
        }
    }
}

#[inline]
pub fn first_error(text: &str) -> Option<LexError> {
    let mut tokens = Tokens::new(text);
    let mut groups = Groups::new();
    while let Some(token) = tokens.next() {
        if let Some(kind) = groups.pass(token.form, token.lo) {
            return Some(LexError::new(kind, token.lo));
        }
    }
    match tokens.error() {
        Some(error) => Some(error),
        None => groups.error_at_end(),
    }
}
