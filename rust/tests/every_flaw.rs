//! Compares all flaws of literals with rustc's errors. The errors are in `every_flaw.txt`, which `oracle/every_flaw.py` creates
//! from the output of rustc.

use navyspindle::FlawKind::{
    self, CarriageReturn, EmptyBraces, HexEscapeOutOfRange, MustEscape, NoBrace, NoCharacter,
    NoHexDigit, NoUnicode, NotAscii, Nul, Surrogate, TooManyDigits, TwoCharacters,
    UnderscoreSuffix, UnicodeEscapeOutOfRange, UnknownEscape,
};
use navyspindle::{
    flaws, flaws_in_file, guess_kind, is_token, pieces, pieces_in_file, InvalidPiece, Kind, Lit,
    Piece,
};

const TABLE: &str = include_str!("every_flaw.txt");

/// Maps the start of each rustc message to the kinds of flaws with the same meaning. In bytes, `\u` alone is the flaw, so the
/// message may be about the rest of the escape. In a number that is too large, the sixth digit is the flaw, even if the number has
/// more digits.
const SAME: &[(&str, &[FlawKind])] = &[
    ("bare CR not allowed in", &[CarriageReturn]),
    ("unknown character escape", &[UnknownEscape, CarriageReturn]),
    ("unknown byte escape", &[UnknownEscape, CarriageReturn]),
    (
        "invalid character in numeric",
        &[NoHexDigit, HexEscapeOutOfRange],
    ),
    ("numeric character escape is", &[NoHexDigit]),
    ("out of range hex escape", &[HexEscapeOutOfRange]),
    ("incorrect unicode escape", &[NoBrace, NoUnicode]),
    ("empty unicode escape", &[EmptyBraces, NoUnicode]),
    ("invalid start of unicode", &[NoHexDigit, NoUnicode]),
    ("invalid character in unicode", &[NoHexDigit, NoUnicode]),
    ("unterminated unicode escape", &[NoHexDigit, NoUnicode]),
    (
        "overlong unicode escape",
        &[TooManyDigits, UnicodeEscapeOutOfRange],
    ),
    (
        "invalid unicode character",
        &[UnicodeEscapeOutOfRange, Surrogate],
    ),
    ("unicode escape in byte string", &[NoUnicode]),
    ("non-ASCII character in", &[NotAscii]),
    ("null characters in C string", &[Nul]),
    ("character constant must be", &[MustEscape, NoCharacter]),
    ("byte constant must be", &[MustEscape, NoCharacter]),
    ("empty character literal", &[NoCharacter]),
    ("character literal may only contain", &[TwoCharacters]),
    ("underscore literal suffix", &[UnderscoreSuffix]),
];

fn decoded(digits: &str) -> String {
    let byte = |at| u8::from_str_radix(&digits[at..at + 2], 16).unwrap();
    String::from_utf8((0..digits.len()).step_by(2).map(byte).collect()).unwrap()
}

/// Whether an error of rustc and the flaw `bad` are the same. The message must have the flaw's meaning, and rustc must mark the
/// whole piece or its last character. For two characters in a literal rustc marks the literal, and for none the position between
/// the quotes.
fn is_same(error: &str, bad: &InvalidPiece, text: &str) -> bool {
    let (place, message) = error.split_once(' ').unwrap();
    let (low, high) = place.split_once("..").unwrap();
    let (low, high): (usize, usize) = (low.parse().unwrap(), high.parse().unwrap());
    let kinds = SAME.iter().find(|(said, _)| message.starts_with(said));
    let last = text[bad.range()].char_indices().last().unwrap().0;
    let is_place = match bad.kind() {
        TwoCharacters => low == 0 && (low..high).contains(&bad.offset()),
        NoCharacter if low == high => low == bad.offset(),
        _ => {
            high == bad.range().end && (low == bad.range().start || low == bad.range().start + last)
        }
    };
    is_place && kinds.unwrap().1.contains(&bad.kind())
}

#[test]
fn rustc_names_the_same_flaws() {
    let (mut literals, mut errors) = (0, 0);
    for line in TABLE.lines() {
        let mut fields = line.split('\t');
        let text = decoded(fields.next().unwrap());
        let theirs: Vec<_> = fields.collect();
        let ours: Vec<_> = flaws(&text).collect();
        assert_eq!(ours.len(), theirs.len(), "{text:?}: {ours:?}, {theirs:?}");
        for (bad, error) in ours.iter().zip(&theirs) {
            assert!(is_same(error, bad, &text), "{text:?}: {bad:?}, {error}");
        }
        literals += 1;
        errors += ours.len();
    }
    assert_eq!((literals, errors), (198, 612));
}

/// rustc reads each CR LF of a file as LF. So the flaws of a literal with CR LF are those of the literal with LF.
#[test]
fn in_a_file_a_line_end_may_have_a_cr() {
    let (mut literals, mut line_ends) = (0, 0);
    for line in TABLE.lines() {
        let text = decoded(line.split('\t').next().unwrap());
        assert!(flaws_in_file(&text).eq(flaws(&text)) || text.contains("\r\n"));
        if text.contains('\r') {
            continue;
        }
        let moved = |at: usize| at + text[..at].matches('\n').count();
        let expected =
            flaws(&text).map(|bad| (bad.kind(), moved(bad.offset())..moved(bad.range().end)));
        let in_file = text.replace('\n', "\r\n");
        let found = flaws_in_file(&in_file).map(|bad| (bad.kind(), bad.range()));
        assert!(found.eq(expected), "{in_file:?}");
        literals += 1;
        line_ends += in_file.len() - text.len();
    }
    assert_eq!((literals, line_ends), (143, 50));
}

#[test]
fn a_cr_in_a_file() {
    let of = |text| {
        flaws_in_file(text)
            .map(|bad| (bad.kind(), bad.range(), bad.error().offset()))
            .collect::<Vec<_>>()
    };
    for text in [
        "\"a\r\nb\"",
        "\"a\\\r\n  b\"",
        "b\"\r\n\r\n\"",
        "r#\"\r\n\"#",
        "c\"\r\n\"",
        "1",
    ] {
        assert_eq!(of(text), [], "{text:?}");
        assert_eq!(Lit::of_text(text).check(), Ok(()), "{text:?}");
    }
    assert_eq!(of("\"a\r\n\\q\""), [(UnknownEscape, 4..6, 5)]);
    assert_eq!(
        of("\"a\rb\r\n\\q\r\r\n\""),
        [
            (CarriageReturn, 2..3, 2),
            (UnknownEscape, 6..8, 7),
            (CarriageReturn, 8..9, 8)
        ]
    );
    assert_eq!(of("'\r\n'"), [(MustEscape, 1..3, 1)]);
    assert_eq!(of("0b12"), [(FlawKind::InvalidDigit, 0..4, 3)]);
    // The text itself, not as a literal of a file.
    let kinds: Vec<_> = flaws("\"a\r\n\\q\"").map(|bad| bad.kind()).collect();
    assert_eq!(kinds, [CarriageReturn, UnknownEscape]);
}

/// The bad pieces of a literal are its flaws. In a string, the pieces cover the whole text between the quotes.
#[test]
fn pieces_fill_the_literal() {
    for text in TABLE
        .lines()
        .map(|line| decoded(line.split('\t').next().unwrap()))
    {
        let all: Vec<_> = pieces(&text).unwrap().collect();
        let bad = all.iter().filter_map(|piece| match piece {
            Piece::Bad(bad) => Some(*bad),
            _ => None,
        });
        assert!(bad.eq(flaws(&text)), "{text:?}");
        if matches!(guess_kind(&text), Some(Kind::Char | Kind::Byte)) {
            continue;
        }
        let range = |piece: &Piece| match piece {
            Piece::Good(segment) => segment.range.clone(),
            Piece::Bad(bad) => bad.range(),
            _ => unreachable!("a piece is good or bad"),
        };
        assert!(
            all.windows(2)
                .all(|it| range(&it[0]).end == range(&it[1]).start),
            "{text:?}"
        );
        let hashes = text.bytes().rev().take_while(|byte| *byte == b'#').count();
        let opener = text.find('"').unwrap() + 1;
        assert_eq!(range(&all[0]).start, opener);
        assert_eq!(range(all.last().unwrap()).end, text.len() - 1 - hashes);
    }
}

/// In a file, CR LF is read as LF: the bad pieces of a literal are the flaws in the file, and the pieces without a flaw are segments.
#[test]
fn pieces_of_a_file() {
    let rows: &[(&str, &[&str])] = &[
        ("\"a\r\n\\q\"", &["1..2 0..1", "2..4 1..2", "!4..6"]),
        ("\"\\\r\n \r\nb\r\"", &["1..7 0..0", "7..8 0..1", "!8..9"]),
        ("b\"\r\n\\x4\r\n\"", &["2..4 0..1", "!4..9"]),
        ("r#\"a\r\n\r\"#", &["3..6 0..3", "!6..7"]),
        ("c\"\r\n\\\r\n\"_", &["2..4 0..1", "4..7 1..1", "!8..9"]),
        ("'\r\n'", &["!1..3"]),
        ("'\\q\r\n'_", &["!1..3", "!6..7"]),
        ("\"\r", &["!1..2", "!2..2"]),
    ];
    for (text, expected) in rows {
        let all: Vec<_> = pieces_in_file(text).unwrap().collect();
        let shown = all.iter().map(|piece| match piece {
            Piece::Good(it) => format!("{:?} {:?}", it.range, it.value_range),
            other => format!("!{:?}", other.range()),
        });
        assert_eq!(shown.collect::<Vec<_>>(), *expected, "{text:?}");
        let bad = all.iter().filter_map(|piece| match piece {
            Piece::Bad(bad) => Some(*bad),
            _ => None,
        });
        assert!(bad.eq(flaws_in_file(text)), "{text:?}");
    }
    let text = "\"a\r\n\\\r\n  b\\x41\"";
    let literal = Lit::of_text(text);
    let segments = literal.segments().unwrap();
    assert!(pieces_in_file(text).unwrap().eq(segments.map(Piece::Good)));
    assert!(pieces_in_file("1").is_none());
}

/// The pieces of a valid literal token are its segments, and its kind is the kind that it begins as.
#[test]
fn tokens_have_no_flaws() {
    let tokens = [
        (r#""é\n\x41\u{e9}""#, Kind::Str),
        ("r#\"a\"\\q\"#suffix", Kind::Str),
        ("b\"\\xff\\\n  a\"", Kind::ByteStr),
        ("br\"\\q\"", Kind::ByteStr),
        ("c\"é\\xff\"", Kind::CStr),
        ("cr##\"\"#\"##", Kind::CStr),
        (r"'\u{1F600}'", Kind::Char),
        ("'a'", Kind::Char),
        (r"b'\\'", Kind::Byte),
        ("1_000u8", Kind::Int),
        ("0x1e5", Kind::Int),
        ("0b1", Kind::Int),
        ("1f32", Kind::Int),
        ("1.", Kind::Float),
        ("1_.5", Kind::Float),
        ("1e5", Kind::Float),
        ("true", Kind::Bool),
    ];
    for (text, kind) in tokens {
        assert!(is_token(text));
        assert_eq!(flaws(text).next(), None, "{text}");
        assert_eq!(guess_kind(text), Some(kind), "{text}");
        let literal = Lit::of_text(text);
        let Some(segments) = literal.segments() else {
            assert!(pieces(text).is_none());
            continue;
        };
        assert!(
            pieces(text).unwrap().eq(segments.map(Piece::Good)),
            "{text}"
        );
    }
}

/// Tests the kind of literal that `guess_kind` returns for a text.
#[test]
fn begins_as() {
    let texts = [
        ("\"", Some(Kind::Str)),
        ("r\"", Some(Kind::Str)),
        ("r##\"a", Some(Kind::Str)),
        ("r#a", None),
        ("r", None),
        ("b\"\\q", Some(Kind::ByteStr)),
        ("br#\"", Some(Kind::ByteStr)),
        ("b'", Some(Kind::Byte)),
        ("b", None),
        ("c\"\\0\"", Some(Kind::CStr)),
        ("cr#\"a\"", Some(Kind::CStr)),
        ("'ab", Some(Kind::Char)),
        ("0b12", Some(Kind::Int)),
        ("0x", Some(Kind::Int)),
        ("1e", Some(Kind::Float)),
        ("1.5.2", Some(Kind::Float)),
        ("-1z-", Some(Kind::Int)),
        ("-1.5z-", Some(Kind::Float)),
        ("-", None),
        ("--1", None),
        ("false", Some(Kind::Bool)),
        ("falsely", None),
        ("word", None),
        ("", None),
    ];
    for (text, kind) in texts {
        assert_eq!(guess_kind(text), kind, "{text}");
    }
}

/// A broken escape ends before a backslash, which begins the next escape. rustc differs: it treats this backslash as an invalid
/// digit.
#[test]
fn a_backslash_begins_the_next_escape() {
    let bad = |text| {
        flaws(text)
            .map(|bad| &text[bad.range()])
            .collect::<Vec<_>>()
    };
    assert_eq!(bad(r#""\x\n""#), [r"\x"]);
    assert_eq!(bad(r#""\x\"a\u\\""#), [r"\x", r"\u"]);
    assert_eq!(bad(r#""\u{1\q""#), [r"\u{1", r"\q"]);
}

/// A flaw after the closing quote is the last flaw, and so is the flaw that the closing quote is missing.
#[test]
fn the_last_flaw() {
    let of = |text| {
        flaws(text)
            .map(|bad| (bad.kind(), bad.range()))
            .collect::<Vec<_>>()
    };
    assert_eq!(
        of(r#""\q"#),
        [(UnknownEscape, 1..3), (FlawKind::Unclosed, 3..3)]
    );
    assert_eq!(
        of(r#""\q"b"c""#),
        [(UnknownEscape, 1..3), (FlawKind::TextAfterQuote, 3..6)]
    );
    assert_eq!(
        of(r#""\q"_"#),
        [(UnknownEscape, 1..3), (UnderscoreSuffix, 4..5)]
    );
    assert_eq!(
        of("r#\"a\r\"##"),
        [(CarriageReturn, 4..5), (FlawKind::ExtraHash, 5..8)]
    );
    assert_eq!(of(r"'\qa'"), [(UnknownEscape, 1..3)]);
    assert_eq!(
        of(r"'\q'-"),
        [(UnknownEscape, 1..3), (FlawKind::BadSuffix, 4..5)]
    );
    assert_eq!(
        of(r"b'\q''"),
        [(UnknownEscape, 2..4), (FlawKind::TextAfterQuote, 4..6)]
    );
    assert_eq!(of(r"'\q\'_"), [(UnknownEscape, 1..3)]);
    assert_eq!(of("'-/'_"), [(TwoCharacters, 1..3)]);
    assert_eq!(of("'-\n-'_"), [(TwoCharacters, 1..3)]);
    assert_eq!(of("0b12"), [(FlawKind::InvalidDigit, 0..4)]);
}

/// The first flaw of a text without a value is the reason that `explain` returns.
#[test]
fn texts_without_a_reading() {
    let texts = [
        ("word", 1),
        ("-340282366920938463463374607431768211457", 1),
        (r"'\q'", 1),
        (r#""\q\y"#, 3),
    ];
    for (text, count) in texts {
        let Lit::Verbatim(literal) = Lit::of_text(text) else {
            panic!("{text}")
        };
        let all: Vec<_> = literal.flaws().take(count + 1).collect();
        assert_eq!(all.len(), count, "{text}");
        let error = literal.explain().unwrap();
        assert_eq!(all[0].error(), error, "{text}");
        assert_eq!(all[0].range(), error.piece(), "{text}");
        assert_eq!(literal.guess_kind(), guess_kind(text));
        let bad = literal
            .pieces()
            .map(|all| all.filter(|it| matches!(it, Piece::Bad(_))).count());
        assert_eq!(bad, text.contains(['\'', '"']).then_some(count), "{text}");
    }
}

/// The time for a text with many bad escapes grows in proportion to its length. A slower search wouldn't finish in time.
#[test]
fn time_grows_with_the_text() {
    let text = format!("\"{}", r"\q\u{d800}\xé".repeat(100_000));
    assert_eq!(flaws(&text).count(), 300_001);
    assert_eq!(pieces(&text).unwrap().count(), 300_001);
}
