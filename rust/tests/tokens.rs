//! Checks that a loop over the tokens of a text finds the literals that `source` returns.
#![cfg(feature = "sources")]

use navyspindle::{leading_comments, parse_list, skip_token, skip_trivia, source, Lit};
use std::fs;
use std::ops::Range;
use std::time::{Duration, Instant};

/// Returns the literals of a text that has no `#!` line for an interpreter. If an open quote or comment ends the loop, it also
/// returns that byte offset.
fn by_tokens(text: &str) -> (Vec<(Range<usize>, Lit<'_>)>, Option<usize>) {
    let (mut found, mut rest) = (Vec::new(), skip_trivia(text));
    while let Some(following) = skip_token(rest) {
        let (at, end) = (text.len() - rest.len(), text.len() - following.len());
        if let Some((literal, after)) = Lit::parse_prefix(rest) {
            assert_eq!(after, following);
            found.push((at..end, literal));
        }
        rest = skip_trivia(following);
    }
    let end = text.len() - rest.len();
    (found, (!rest.is_empty()).then_some(end))
}

fn check(text: &str) -> usize {
    let (mut expected, mut end) = (Vec::new(), None);
    for item in source(text) {
        match item {
            Ok(found) => expected.push(found),
            Err(error) => end = Some(error.offset()),
        }
    }
    let found = by_tokens(text);
    assert_eq!(found, (expected, end));
    found.0.len()
}

#[test]
fn as_source() {
    let mut literals = 0;
    for folder in ["src", "tests", "examples"] {
        for entry in fs::read_dir(folder).expect("a folder") {
            let path = entry.expect("an entry").path();
            if path.extension().is_some_and(|it| it == "rs") {
                literals += check(&fs::read_to_string(path).expect("a text"));
            }
        }
    }
    assert!(literals > 2_000, "{literals}");
    for text in [
        "",
        "é ü",
        "'a 'b' 'r#c",
        "/// \"a\"\n1",
        "/** 'b' */ 2",
        "r#fn r\"a\" r#\"b\"#",
        "1.5.0 x.0.1",
        "\"a",
        "1 /* 2",
        "'",
        "a\u{0}b",
        "b'' 'ab' ''",
        "true false truth",
    ] {
        check(text);
    }
}

/// `skip_token` skips each kind of token as a whole, and nothing after it.
#[test]
fn one_token_is_passed() {
    for (token, rest) in [
        ("word", " 1"),
        ("1u8", ","),
        ("\"a\\\"b\"", ";"),
        ("'life", " x"),
        ("r#raw", "("),
        ("(", "1)"),
        ("}", ""),
        ("=", "="),
        ("é", "-"),
        ("\u{1f600}", "\u{1f600}"),
        ("/// doc", "\n1"),
        ("/** doc */", "1"),
        ("r##\"a\"#\"##", "#"),
    ] {
        let text = format!("{token}{rest}");
        assert_eq!(skip_token(&text), Some(rest), "{text}");
    }
    for text in [
        "", " a", "\n", "// b\nc", "/* d */e", "\"f", "/* g", "r#\"h\"",
    ] {
        assert_eq!(skip_token(text), None, "{text}");
    }
}

#[test]
fn the_next_literal() {
    for (text, literal, rest) in [
        ("1 + 2", "1", " + 2"),
        (" /* a */ // b\n 'x'y", "'x'y", ""),
        ("\"\"\"\"", "\"\"", "\"\""),
        ("1.5.0", "1.5", ".0"),
        ("true)", "true", ")"),
    ] {
        let found = Lit::parse_next(text).map(|(literal, rest)| (literal.to_string(), rest));
        assert_eq!(found, Ok((literal.to_string(), rest)), "{text:?}");
    }
    let end = "unexpected end of input, expected literal";
    for (text, message, range) in [
        ("", end, 0..0),
        (" // a", end, 5..5),
        ("-1", "not a literal", 0..1),
        (" /**/ - 1", "not a literal", 6..7),
        ("-a", "not a literal", 0..1),
        (" word 1", "not a literal", 1..5),
        ("é", "not a literal", 0..2),
        ("(1)", "expected literal, found group", 0..1),
        (" /* a", "unclosed block comment", 1..5),
        ("\n\"a", "unclosed quote", 1..3),
        ("/// a\n1", "unexpected doc comment", 0..5),
    ] {
        let error = Lit::parse_next(text).expect_err(text);
        let shown = (error.kind().to_string(), error.range());
        assert_eq!(shown, (message.to_string(), range), "{text:?}");
    }
}

/// Returns the ranges of the plain comments at the start of a text, as the Rust Reference defines comments.
fn comments_in_model(text: &str) -> Vec<Range<usize>> {
    let (mut found, mut at) = (Vec::new(), 0);
    loop {
        at = text.len() - text[at..].trim_start().len();
        let rest = &text[at..];
        let is_doc = |doc: &str, others: [&str; 2]| {
            rest.starts_with(doc) && !others.iter().any(|other| rest.starts_with(other))
        };
        let len =
            if rest.starts_with("//") && !rest.starts_with("//!") && !is_doc("///", ["////"; 2]) {
                rest.find('\n').unwrap_or(rest.len())
            } else if rest.starts_with("/*")
                && !rest.starts_with("/*!")
                && !is_doc("/**", ["/***", "/**/"])
            {
                let (mut depth, mut end) = (0, 0);
                loop {
                    match rest.as_bytes()[end..] {
                        [b'/', b'*', ..] => (depth, end) = (depth + 1, end + 2),
                        [b'*', b'/', ..] => (depth, end) = (depth - 1, end + 2),
                        [_, ..] => end += 1,
                        [] => return found,
                    }
                    if depth == 0 {
                        break end;
                    }
                }
            } else {
                return found;
            };
        found.push(at..at + len);
        at += len;
    }
}

#[test]
fn comments_at_the_start() {
    for (text, comments) in [
        ("", &[][..]),
        (" a // b", &[]),
        ("// a", &["// a"]),
        ("// a\r\n\t/* b\n */c", &["// a\r", "/* b\n */"]),
        (
            "/* /* a */ */// /* b\n\"// c\"",
            &["/* /* a */ */", "// /* b"],
        ),
        ("/**//***/////\n1", &["/**/", "/***/", "////"]),
        ("/* é */ /// b", &["/* é */"]),
        ("/* a *//** b */", &["/* a */"]),
        ("/* a *//*! b */", &["/* a */"]),
        ("// a\n/* b", &["// a"]),
        ("\u{200e}// a\u{200f}", &["// a\u{200f}"]),
        ("/ / a", &[]),
    ] {
        let found = leading_comments(text).map(|range| &text[range]);
        assert_eq!(found.collect::<Vec<_>>(), comments, "{text:?}");
    }
    // The ranges go on from a clone.
    let mut first = leading_comments("// a\n// b");
    first.next();
    assert_eq!(first.clone().next(), Some(5..9));
    assert_eq!(
        (first.next(), first.next(), first.next()),
        (Some(5..9), None, None)
    );
    const PARTS: [&str; 8] = ["//", "/*", "*/", "/", "*", "!", "\n", " a"];
    let (mut state, mut comments) = (7_u64, 0);
    for round in 0..100_000 {
        let mut text = String::from(["/*", "//", " "][round % 3]);
        for _ in 0..round % 16 {
            state = state.wrapping_mul(0x5851_F42D_4C95_7F2D).wrapping_add(1);
            text += PARTS[(state >> 61) as usize];
        }
        state = state.wrapping_add(1);
        let expected = comments_in_model(&text);
        comments += expected.len();
        assert_eq!(
            leading_comments(&text).collect::<Vec<_>>(),
            expected,
            "{text:?}"
        );
        let end = expected.last().map_or(0, |range| range.end);
        assert_eq!(text[end..].trim_start(), skip_trivia(&text), "{text:?}");
    }
    assert!(comments > 40_000, "{comments}");
}

/// A parser may call `parse_prefix` at each character of a text. If the first characters can't begin a literal, the result doesn't
/// depend on the text after them: reading each of these texts to its end at each character would take minutes.
#[test]
fn none_without_reading_on() {
    for piece in ["word", "é", "/* ", "+ ", "recover ", "bytes_"] {
        let text = piece.repeat(400_000 / piece.len());
        let begun = Instant::now();
        for (at, _) in text.char_indices() {
            assert!(Lit::parse_prefix(&text[at..]).is_none());
        }
        assert!(begun.elapsed() < Duration::from_secs(20), "{piece}");
    }
}

/// `parse_prefix` returns a literal exactly where `source` finds one at the start of the text.
#[test]
fn a_literal_where_source_finds_one() {
    for text in [
        "0",
        "9.5",
        "\"\"",
        "'a'",
        "''",
        "'ab'",
        "'1a",
        "r\"\"",
        "r#\"\"#",
        "r##\"\"##",
        "b\"\"",
        "b'a'",
        "b'ab'",
        "br\"\"",
        "br#\"\"#",
        "c\"\"",
        "cr\"\"",
        "cr#\"\"#",
        "true",
        "false",
        "truth",
        "trues",
        "f",
        "r",
        "r#a",
        "r#",
        "b",
        "br",
        "br#",
        "c",
        "cr",
        "'a",
        "a\"\"",
        "R\"\"",
        "-1",
        "é",
        "",
        " 1",
        "/* */1",
    ] {
        let first = source(text).next();
        let begins = matches!(first, Some(Ok((ref place, _))) if place.start == 0);
        assert_eq!(Lit::parse_prefix(text).is_some(), begins, "{text}");
    }
}

/// Calls `check` with each text of at most `length` of these parts.
fn each_text(length: usize, text: &mut String, check: &mut impl FnMut(&str)) {
    const PARTS: [&str; 14] = [
        "-", "1", ".", " ", "\n", "/*", "*/", "//", "!", "'", "\"", "r#", "x", "(",
    ];
    check(text);
    if length > 0 {
        for part in PARTS {
            let before = text.len();
            text.push_str(part);
            each_text(length - 1, text, check);
            text.truncate(before);
        }
    }
}

/// Where no literal begins a text, `parse_list` returns the reason, except for a minus before a number. After `skip_trivia`, a text
/// begins with `//` or `/*` only if `parse_list` returns an error there.
#[test]
fn a_reason_where_no_literal_begins() {
    let (mut reasons, mut comments) = (0, 0);
    each_text(5, &mut String::new(), &mut |text| {
        let text = skip_trivia(text);
        let first = parse_list(text).next();
        if Lit::parse_prefix(text).is_none() {
            match first {
                None => assert_eq!(text, ""),
                Some(Ok((ref range, ref literal))) => {
                    assert!(text.starts_with('-') && range.start == 0, "{text:?}");
                    assert!(literal.text().starts_with('-'), "{text:?}");
                }
                Some(Err(ref error)) => {
                    assert!(text.starts_with('-') || error.offset() == 0, "{text:?}");
                    reasons += 1;
                }
            }
        }
        if text.starts_with("//") || text.starts_with("/*") {
            assert_eq!(first.unwrap().unwrap_err().offset(), 0, "{text:?}");
            comments += 1;
        }
    });
    assert!(
        reasons > 100_000 && comments > 10_000,
        "{reasons}, {comments}"
    );
}
