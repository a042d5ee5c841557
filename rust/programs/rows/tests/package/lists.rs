//! Compares lists of literals, and the literals of sources, with the translated libraries: their ranges, and the errors that end
//! them.

use crate::literals::{check_closely, check_same, proved_of, Proved};
use navyspindle::{parse_list, source, ListError, Lit, Literals, Recover, Source};
use navyspindle_programs::rattle_std::alloc::Global;
use navyspindle_programs::{rl_grammar, rl_tokens, rust_literals};
use std::ops::Range;

type Item<'t> = Result<(Range<usize>, Lit<'t>), ListError>;

/// Returns the next item, after checking that a copy of the iterator returns the same item. After an error or the end, no item may
/// follow.
macro_rules! next_literal_of {
    ($name:ident, $iterator:ty) => {
        fn $name<'t>(items: &mut $iterator, copy: $iterator) -> Option<Item<'t>> {
            let (item, mut copy) = (items.next(), copy);
            assert_eq!(copy.next(), item);
            if !matches!(item, Some(Ok(_))) {
                assert!(items.next().is_none() && copy.next().is_none());
            }
            item
        }
    };
}
next_literal_of!(next_of_list, Literals<'t>);
next_literal_of!(next_of_source, Source<'t>);

/// Returns the next item of a recovering iterator, after checking that a copy of it returns the same item.
fn next_recovered<'t>(items: &mut Recover<'t>) -> Option<Item<'t>> {
    let mut copy = items.clone();
    let item = items.next();
    assert_eq!(copy.next(), item);
    item
}

/// Checks a literal and its range. If the literal's text isn't the text of the range, all functions of the literal are checked.
fn check_item(text: &str, range: Range<usize>, ours: &Lit, proved: &Proved, span: Range<usize>) {
    assert_eq!(range, span, "{text:?}");
    if text[range] == *ours.text() {
        check_same(ours, proved);
    } else {
        check_closely(ours, proved);
    }
}

/// Returns the range and the name of the error that ends the proved list.
fn rejection_in(text: &str) -> (Range<usize>, String) {
    let mut tokens = rl_tokens::Tokens::new(text);
    let rejection = loop {
        match rl_grammar::next_list_literal(&mut tokens) {
            rl_grammar::ListStep::Literal(_) => {}
            rl_grammar::ListStep::End => panic!("{text:?}"),
            rl_grammar::ListStep::Rejected(rejection) => break rejection,
        }
    };
    let name = match rejection.kind {
        rl_grammar::RejectionKind::Lex(kind) => format!("{kind:?}"),
        rl_grammar::RejectionKind::Group => "Group".to_owned(),
        rl_grammar::RejectionKind::UnmatchedClose => "UnmatchedClose".to_owned(),
        rl_grammar::RejectionKind::NotALiteral if text[rejection.at..].starts_with('-') => {
            "NoNumber".to_owned()
        }
        rl_grammar::RejectionKind::NotALiteral => "NotALiteral".to_owned(),
    };
    (range_at(text, rejection.at, &name), name)
}

/// Returns the range of the token at a byte offset. A token that isn't closed reaches to the end of the text.
pub fn range_at(text: &str, at: usize, name: &str) -> Range<usize> {
    let rest = &text[at..];
    let len = match rl_tokens::Tokens::new(rest).next() {
        Some(token) => Some(token.hi),
        None if name == "StrayCharacter" => rest.chars().next().map(char::len_utf8),
        // Some tokens are allowed in a source, but not in a list.
        None => rl_tokens::Sources::new(rest).next().map(|it| it.hi),
    };
    at..at + len.unwrap_or(rest.len())
}

/// Returns the package's message for an error in a list, a source or settings.
pub fn words_of(name: &str) -> &'static str {
    match name {
        "NotALiteral" => "not a literal",
        "NoNumber" => "expected number up to 128 bits after `-`",
        "DocComment" => "unexpected doc comment",
        "UnclosedComment" => "unclosed block comment",
        "UnclosedQuote" => "unclosed quote",
        "Lifetime" => "unexpected lifetime: a string has double quotes",
        "RawIdentifier" => "unexpected raw identifier",
        "StrayCharacter" => "stray character",
        "UnmatchedClose" => "unmatched closing delimiter",
        "UnclosedGroup" => "unclosed group",
        "TooDeep" => "groups nested too deep",
        "Group" => "expected literal, found group",
        _ => panic!("{name}"),
    }
}

fn check_error(error: &ListError, range: Range<usize>, name: &str, text: &str) {
    let words = words_of(name);
    assert_eq!(error.range(), range, "{text:?}");
    assert_eq!(error.offset(), range.start, "{text:?}");
    assert_eq!(format!("{:?}", error.kind()), name, "{text:?}");
    assert_eq!(error.kind().to_string(), words, "{text:?}");
    let line = format!("{words} at byte {}", range.start);
    assert_eq!(error.to_string(), line, "{text:?}");
}

pub fn check_list(text: &str) {
    let mut proved = rust_literals::Literals::new(Global, text, 0);
    let mut ours = parse_list(text);
    loop {
        let copy = ours.clone();
        match (next_of_list(&mut ours, copy), proved.next()) {
            (Some(Ok((range, ours))), Ok(Some(literal))) => {
                let span = literal.span();
                check_item(text, range, &ours, &literal, span.lo..span.hi);
            }
            (Some(Err(error)), Err(_)) => {
                let (range, name) = rejection_in(text);
                return check_error(&error, range, &name, text);
            }
            (None, Ok(None)) => return,
            // The proved list checks that all groups are closed before it returns a literal, so it may fail earlier.
            (Some(Ok(_)), Err(_)) if rl_tokens::lex(Global, text, 0).is_err() => return,
            (ours, proved) => panic!("{text:?}: {ours:?}, {:?}", proved.map(|it| it.is_some())),
        }
    }
}

pub fn check_source(text: &str) {
    let mut proved = rl_tokens::Sources::new(text);
    let mut ours = source(text);
    let mut returned = 1;
    loop {
        let copy = ours.clone();
        match (next_of_source(&mut ours, copy), proved.next_literal()) {
            (Some(Ok((range, ours))), Some(token)) => {
                returned += 1;
                let literal = proved_of(token.text);
                check_item(text, range, &ours, &literal, token.lo..token.hi);
            }
            (Some(Err(error)), None) => {
                let cause = proved.error().unwrap();
                let name = format!("{:?}", cause.kind);
                // The error is a quote or a comment that isn't closed.
                check_error(&error, cause.at..text.len(), &name, text);
                let rest = source(text).recover().skip(returned);
                assert!(ours.recover().eq(rest), "{text:?}");
                return check_recovery(text);
            }
            (None, None) => {
                assert!(proved.error().is_none(), "{text:?}");
                return;
            }
            (ours, token) => panic!("{text:?}: {ours:?}, {}", token.is_some()),
        }
    }
}

/// Checks that recovery after an error continues like a new source that consists of the lines after the error.
fn check_recovery(text: &str) {
    // Texts in which an error's line continues after a line end, or in which a line begins with text that is special at the start
    // of a source, aren't compared.
    if ["\\\n", "\n\u{feff}", "\n#!"]
        .iter()
        .any(|it| text.contains(it))
    {
        return;
    }
    let mut ours = source(text).recover();
    let mut lines = text;
    loop {
        let front = text.len() - lines.len();
        let mut proved = rl_tokens::Sources::new(lines);
        while let Some(token) = proved.next_literal() {
            let (range, ours) = next_recovered(&mut ours).unwrap().unwrap();
            let span = front + token.lo..front + token.hi;
            check_item(text, range, &ours, &proved_of(token.text), span);
        }
        let Some(cause) = proved.error() else { break };
        let error = next_recovered(&mut ours).unwrap().unwrap_err();
        let name = format!("{:?}", cause.kind);
        check_error(&error, front + cause.at..text.len(), &name, text);
        match proved.following_lines() {
            Some(following) if name == "UnclosedQuote" => lines = following,
            _ => break,
        }
    }
    assert!(next_recovered(&mut ours).is_none(), "{text:?}");
}
