//! Compares the texts that the package accepts, and its errors for other texts, with the translated libraries.

use crate::literals::{check_closely as check_literal_closely, check_same, Proved};
use navyspindle::{
    is_token, Kind, Lit, LitBool, LitByte, LitByteStr, LitCStr, LitChar, LitFloat, LitInt, LitStr,
    ParseError, ParseErrorKind,
};
use navyspindle_programs::rl_grammar::{
    explain, explain_missing_value, is_float_by_suffix, strict, Flaw, LineEnds,
};

/// Returns the expected error of a text: it isn't a literal token after an optional minus, or it is an integer above 128 bits.
fn proved_flaw(text: &str) -> Option<Flaw> {
    explain_missing_value(text, LineEnds::Text, true)
}

/// Returns the flaw that `of` finds in the text after each CR LF is replaced by LF, with byte offsets of the original text.
fn flaw_by_hand(text: &str, of: impl Fn(&str) -> Option<Flaw>) -> Option<Flaw> {
    // `places` has, for each byte of the replaced text, its offset in the original text. The offset of an LF that replaces a CR LF
    // is that of the CR.
    let (mut read, mut places) = (String::new(), Vec::new());
    let mut chars = text.char_indices().peekable();
    while let Some((at, c)) = chars.next() {
        let end = chars.next_if(|&(_, next)| c == '\r' && next == '\n');
        read.push(end.map_or(c, |(_, lf)| lf));
        places.resize(read.len(), at);
    }
    places.push(text.len());
    let flaw = of(&read)?;
    // A flaw's offsets are always at the first byte of a character, so `places` needs no exact offsets for the other bytes.
    Some(Flaw {
        kind: flaw.kind,
        from: places[flaw.from],
        lo: places[flaw.lo],
        hi: places[flaw.hi],
    })
}

/// Returns the expected error of a text in a file, where CR LF counts as LF.
pub fn proved_flaw_in_file(text: &str) -> Option<Flaw> {
    flaw_by_hand(text, proved_flaw)
}

#[track_caller]
fn check_flaw(text: &str, error: ParseError, flaw: Flaw) {
    check_flaw_of(text, error, flaw, flaw.kind.message());
}

/// Checks the error of a text with this flaw, whose message is `words`.
#[track_caller]
fn check_flaw_of(text: &str, error: ParseError, flaw: Flaw, words: &str) {
    assert_eq!(error.range(), flaw.lo..flaw.hi, "{text:?}");
    // The range to show for a missing closing quote isn't empty.
    let is_open = flaw.kind.id() == "unclosed-quote" && flaw.from == flaw.hi;
    let from = if is_open { 0 } else { flaw.from };
    assert_eq!(error.piece(), from..flaw.hi, "{text:?}");
    assert_eq!(error.kind().to_string(), words, "{text:?}");
    let line = format!("{words} at byte {}", flaw.lo);
    assert_eq!(error.to_string(), line, "{text:?}");
}

/// Checks the error of a text that has no value in Rust.
pub fn check_verbatim(ours: &Lit, proved: &Proved) {
    let Lit::Verbatim(literal) = ours else {
        panic!()
    };
    match (
        literal.explain(),
        explain_missing_value(proved.text(), LineEnds::Text, true),
    ) {
        (None, None) => assert!(is_float_by_suffix(ours.text()), "{:?}", ours.text()),
        (Some(error), Some(flaw)) => check_flaw(ours.text(), error, flaw),
        (_, flaw) => panic!("{:?}: {:?}", ours.text(), flaw.map(|it| it.kind)),
    }
}

/// Checks whether `Lit::parse` accepts a text, and its error.
pub fn check_parse(text: &str, proved: &Proved) {
    match (Lit::parse(text), proved_flaw(text)) {
        (Ok(ours), None) => check_same(&ours, proved),
        (Err(error), Some(flaw)) => check_flaw(text, error, flaw),
        (ours, flaw) => panic!("{text:?}: {ours:?}, {:?}", flaw.map(|it| it.kind)),
    }
}

/// Checks all functions that parse a single text.
pub fn check_closely(text: &str, proved: &Proved) {
    let read = [
        Lit::parse(text),
        Lit::try_from(text.to_owned()),
        text.parse::<Lit>(),
    ];
    for ours in read {
        match (ours, proved_flaw(text)) {
            (Ok(ours), None) => check_literal_closely(&ours, proved),
            (Err(error), Some(flaw)) => check_flaw(text, error, flaw),
            (ours, flaw) => panic!("{text:?}: {ours:?}, {:?}", flaw.map(|it| it.kind)),
        }
    }
    assert_eq!(is_token(text), strict::is_token(text), "{text:?}");
    check_kinds(text, proved);
}

/// Checks the parsers of single kinds. Each parser accepts only literals of its kind, and its error names both kinds.
fn check_kinds(text: &str, proved: &Proved) {
    macro_rules! check {
        ($($name:ident $kind:ident)*) => {
            $(check_kind(
                text,
                proved,
                Kind::$kind,
                [
                    $name::parse(text).map(Lit::from),
                    $name::try_from(text.to_owned()).map(Lit::from),
                    text.parse::<$name>().map(Lit::from),
                    match Lit::parse(text).map($name::try_from) {
                        Ok(Ok(it)) => Ok(Lit::from(it)),
                        other => {
                            // A literal of another kind is returned unchanged.
                            if let Ok(Err(it)) = other {
                                check_same(&it, proved);
                            }
                            $name::parse(text).map(Lit::from)
                        }
                    },
                ],
            );)*
        };
    }
    check!(LitStr Str LitByteStr ByteStr LitCStr CStr LitByte Byte LitChar Char LitInt Int LitFloat Float LitBool Bool);
}

fn check_kind(text: &str, proved: &Proved, expected: Kind, read: [Result<Lit, ParseError>; 4]) {
    for ours in read {
        match (ours, proved_flaw(text)) {
            (Ok(ours), None) => {
                assert_eq!(ours.kind(), expected, "{text:?}");
                check_same(&ours, proved);
            }
            (Err(error), Some(flaw)) if flaw.kind.id() == "no-literal" => {
                check_flaw_of(text, error, flaw, &format!("expected {expected}"));
            }
            (Err(error), Some(flaw)) => check_flaw(text, error, flaw),
            (Err(error), None) => {
                let words = match proved.kind().map(|kind| kind.description()) {
                    Some(found) => format!("expected {expected}, found {found}"),
                    None => format!("expected {expected}"),
                };
                assert_eq!(error.kind().to_string(), words, "{text:?}");
                assert_eq!(
                    (error.range(), error.piece()),
                    (0..text.len(), 0..text.len())
                );
                assert!(
                    matches!(error.kind(), ParseErrorKind::Kind { expected: it, .. } if it == expected),
                    "{text:?}"
                );
            }
            (ours, flaw) => panic!("{text:?}: {ours:?}, {:?}", flaw.map(|it| it.kind)),
        }
    }
}

/// Checks whether the package accepts a text in a file, where CR LF counts as LF.
pub fn check_file(text: &str) {
    assert_eq!(
        strict::read(text, LineEnds::File, false).err(),
        flaw_by_hand(text, explain),
        "{text:?}"
    );
    let value = flaw_by_hand(text, |read| explain(read).or_else(|| proved_flaw(read)));
    assert_eq!(
        explain_missing_value(text, LineEnds::File, false),
        value,
        "{text:?}"
    );
    match (Lit::of_text(text).check(), proved_flaw_in_file(text)) {
        (Ok(()), None) => {}
        (Err(error), Some(flaw)) => check_flaw(text, error, flaw),
        (ours, flaw) => panic!("{text:?}: {ours:?}, {:?}", flaw.map(|it| it.kind)),
    }
}
