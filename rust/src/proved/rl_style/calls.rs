// Rendered from crates/rl_style/src/calls.rt by tools/render, which erases contracts: change that file, and render again.
//! Finds out whether a token is inside a macro call, a `macro_rules!` definition or an attribute.

use crate::rl_lexer::{Form, SourceForm, SourceToken};

#[derive(Clone, Copy)]
pub enum Calls<'t> {
    Outside,
    AfterWord(&'t str),
    AfterBang,
    AfterHash,
    Inside(usize),
}

#[inline(never)]
fn is_keyword(word: &str) -> bool {
    matches!(
        word,
        "as" | "break"
            | "const"
            | "continue"
            | "crate"
            | "else"
            | "enum"
            | "extern"
            | "false"
            | "fn"
            | "for"
            | "if"
            | "impl"
            | "in"
            | "let"
            | "loop"
            | "match"
            | "mod"
            | "move"
            | "mut"
            | "pub"
            | "ref"
            | "return"
            | "self"
            | "Self"
            | "static"
            | "struct"
            | "super"
            | "trait"
            | "true"
            | "type"
            | "unsafe"
            | "use"
            | "where"
            | "while"
    )
}

#[inline]
fn deeper(depth: usize) -> usize {
    if depth < usize::MAX { depth + 1 } else { depth }
}

#[inline(always)]
fn after_word<'t>(calls: Calls<'t>, word: &'t str) -> Calls<'t> {
    match calls {
        Calls::AfterBang | Calls::Inside(_) => calls,
        _ => Calls::AfterWord(word),
    }
}

#[inline(always)]
fn after_mark(calls: Calls<'_>, mark: char) -> Calls<'_> {
    match calls {
        Calls::Inside(_) => calls,
        Calls::AfterHash if mark == '!' => calls,
        Calls::AfterWord(word) if mark == '!' && !is_keyword(word) => Calls::AfterBang,
        _ if mark == '#' => Calls::AfterHash,
        _ => Calls::Outside,
    }
}

#[inline]
fn after_opener(calls: Calls<'_>, bracket: char) -> Calls<'_> {
    match calls {
        Calls::Inside(depth) => Calls::Inside(deeper(depth)),
        Calls::AfterBang => Calls::Inside(1),
        Calls::AfterHash if bracket == '[' => Calls::Inside(1),
        _ => Calls::Outside,
    }
}

#[inline]
fn after_closer(calls: Calls<'_>) -> Calls<'_> {
    match calls {
        Calls::Inside(depth) if depth > 1 => Calls::Inside(depth - 1),
        _ => Calls::Outside,
    }
}

#[inline(always)]
fn after_bracket(calls: Calls<'_>, bracket: char) -> Calls<'_> {
    if matches!(bracket, '(' | '[' | '{') {
        return after_opener(calls, bracket);
    }
    after_closer(calls)
}

#[inline(always)]
fn after_any_other(calls: Calls<'_>) -> Calls<'_> {
    match calls {
        Calls::Inside(_) => calls,
        _ => Calls::Outside,
    }
}

#[inline(always)]
fn after_lexeme<'t>(calls: Calls<'t>, form: Form, text: &'t str) -> Calls<'t> {
    match form {
        Form::Identifier => after_word(calls, text),
        Form::Delimiter(bracket) => after_bracket(calls, bracket),
        Form::Mark(mark) => after_mark(calls, mark),
        Form::Literal => after_any_other(calls),
    }
}

#[inline(always)]
pub fn advance_calls<'t>(calls: Calls<'t>, token: SourceToken<'t>) -> Calls<'t> {
    match token.form {
        SourceForm::Token(form) => after_lexeme(calls, form, token.text),
        SourceForm::RawIdentifier => after_word(calls, token.text),
        _ => after_any_other(calls),
    }
}

#[inline(always)]
pub fn is_in_call(calls: Calls<'_>) -> bool {
    matches!(calls, Calls::Inside(_))
}
