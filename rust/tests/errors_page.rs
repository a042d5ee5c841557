//! Checks the examples of docs/ERRORS.md. Each example's text must have the error of its entry, with the message, the range and the
//! piece that the page shows.

use navyspindle::{
    flaws, parse_config, parse_list, parse_settings, source, Key, Lit, LitInt, Number, ParseError,
    ParseErrorKind, SettingError, SettingErrorKind, Settings, SyntaxErrorKind, ValueError,
};
use std::collections::BTreeSet;
use std::ops::Range;

const PAGE: &str = concat!(env!("CARGO_MANIFEST_DIR"), "/../docs/ERRORS.md");
const HOST: Key = Key::new("host", "a string");
const PORT: Key = Key::new("port", "an integer from 0 to 65535");

/// An example in an entry of the page.
struct Example<'p> {
    heading: &'p str,
    /// The first kind that the entry names, such as `FlawKind::Nul`.
    kind: &'p str,
    text: String,
    /// The line below the example's text, which marks the range and the piece of the error.
    marks: &'p str,
}

/// An error in the form that the page shows.
struct Shown {
    kind: String,
    message: String,
    range: Range<usize>,
    piece: Range<usize>,
}

fn examples(page: &str) -> Vec<Example<'_>> {
    let mut found = Vec::new();
    for entry in page.split("\n### ").skip(1) {
        let entry = entry.split("\n## ").next().unwrap();
        let heading = entry.lines().next().unwrap();
        let Some((_, kinds)) = entry
            .split_once("Kind: `")
            .or_else(|| entry.split_once("Kinds: `"))
        else {
            continue; // only `rl_scan` reports it
        };
        let kind = kinds.split('`').next().unwrap();
        for block in entry.split("```text\n").skip(1) {
            let mut lines = block.lines();
            let text = lines.next().unwrap().replace('␉', "\t").replace('␍', "\r");
            let marks = lines.next().unwrap();
            // A text that contains an ellipsis is abbreviated on the page, so it can't be tested.
            if !text.contains('…') {
                found.push(Example {
                    heading,
                    kind,
                    text,
                    marks,
                });
            }
        }
    }
    found
}

/// Returns the line that marks a range, and the piece that ends with it, with one mark for each character.
fn marks_of(text: &str, range: &Range<usize>, piece: &Range<usize>) -> String {
    let columns = |bytes: Range<usize>| text[bytes].chars().count();
    format!(
        "{}{}{}",
        " ".repeat(columns(0..piece.start)),
        "-".repeat(columns(piece.start..range.start)),
        "^".repeat(columns(range.clone()).max(1)),
    )
}

fn of_parse(error: &ParseError) -> Shown {
    let kind = match error.kind() {
        ParseErrorKind::Flaw(kind) => format!("FlawKind::{kind:?}"),
        _ => "ParseErrorKind::Kind".to_string(),
    };
    Shown {
        kind,
        message: error.kind().to_string(),
        range: error.range(),
        piece: error.piece(),
    }
}

/// Returns an error whose piece is its range.
fn plain(kind: String, message: String, range: Range<usize>) -> Shown {
    Shown {
        kind,
        message,
        range: range.clone(),
        piece: range,
    }
}

/// Returns the name of a variant from its `Debug` text, without its fields.
fn variant(debug: &str) -> &str {
    debug.split(|c: char| !c.is_alphanumeric()).next().unwrap()
}

fn value_error<N: Number>(literal: &Lit<'_>) -> Option<ValueError> {
    match literal {
        Lit::Int(literal) => literal.value::<N>().err(),
        Lit::Float(literal) => literal.value::<N>().err(),
        _ => None,
    }
}

fn setting_error(text: &str) -> Result<(), SettingError> {
    let read = Settings::read(text)?;
    read.check(&[HOST, PORT])?;
    read.number::<u16>(PORT)?;
    read.string(HOST)?.ok_or_else(|| read.missing_error(HOST))?;
    Ok(())
}

/// Returns the error of the text, with the error type that `kind` names.
fn error_of(kind: &str, text: &str) -> Option<Shown> {
    Some(match kind.split("::").next()? {
        "FlawKind" => match Lit::parse(text) {
            Err(error) => of_parse(&error),
            Ok(_) => of_parse(&flaws(text).next()?.error()),
        },
        "ParseErrorKind" => of_parse(&LitInt::parse(text).err()?),
        "TypeError" => {
            let error = Lit::parse(text).ok()?.type_error()?;
            plain(
                format!("TypeError::{error:?}"),
                error.to_string(),
                0..text.len(),
            )
        }
        "ValueErrorKind" => {
            let literal = Lit::parse(text).ok()?;
            let error = value_error::<u8>(&literal).or_else(|| value_error::<f64>(&literal))?;
            let message = error
                .message()
                .to_string()
                .replace(error.expected().as_str(), "TYPE");
            plain(
                format!("ValueErrorKind::{:?}", error.kind()),
                message,
                error.range(),
            )
        }
        "LexKind" | "SyntaxErrorKind" if text.contains('=') => {
            let error = parse_settings(text).err()?;
            let kind = match error.kind() {
                SettingErrorKind::Syntax(kind) => *kind,
                _ => SyntaxErrorKind::Repeated,
            };
            plain(
                format!("SyntaxErrorKind::{}", variant(&format!("{kind:?}"))),
                kind.to_string(),
                error.range(),
            )
        }
        "LexKind" | "SyntaxErrorKind" => {
            let error = parse_list(text).find_map(Result::err)?;
            let kind = format!("{:?}", error.kind());
            plain(
                format!("SyntaxErrorKind::{}", variant(&kind)),
                error.kind().to_string(),
                error.range(),
            )
        }
        "SettingErrorKind" => {
            let error = setting_error(text).err()?;
            let kind = format!("{:?}", error.kind());
            let message = error
                .kind()
                .to_string()
                .replace("host:", "NAME:")
                .replace("port:", "NAME:");
            plain(
                format!("SettingErrorKind::{}", variant(&kind)),
                message,
                error.range(),
            )
        }
        _ => return None,
    })
}

/// Returns the text inside the backticks.
fn uncoded(code: &str) -> &str {
    let inner = |mark| code.strip_prefix(mark)?.strip_suffix(mark);
    inner("``").map_or_else(|| inner("`").expect("code font"), str::trim)
}

/// Whether a heading contains the message. If the heading contains two dots, the message must begin and end like the parts around
/// the dots.
fn has_message(heading: &str, message: &str) -> bool {
    let mut parts = heading.split(" / ").map(uncoded);
    parts.any(|part| match part.split_once("..") {
        Some((before, after)) => message.starts_with(before) && message.ends_with(after),
        None => message == part,
    })
}

#[test]
fn each_example_has_the_error_of_its_entry() {
    let page = std::fs::read_to_string(PAGE).expect("the page");
    let examples = examples(&page);
    assert!(examples.len() > 60, "{} examples", examples.len());
    for Example {
        heading,
        kind,
        text,
        marks,
    } in examples
    {
        let error =
            error_of(kind, &text).unwrap_or_else(|| panic!("{heading}: {text} has no error"));
        let kind = kind.replace("LexKind", "SyntaxErrorKind");
        assert_eq!(error.kind, kind, "{heading}: {text}");
        assert!(
            has_message(heading, &error.message),
            "{heading}: {text}: {}",
            error.message
        );
        assert_eq!(
            marks_of(&text, &error.range, &error.piece),
            marks,
            "{heading}: {text}"
        );
    }
}

/// Returns the texts in code font of a cell.
fn codes(cell: &str) -> Vec<&str> {
    let (mut found, mut rest) = (Vec::new(), cell);
    while let Some(start) = rest.find('`') {
        let mark = if rest[start..].starts_with("``") {
            "``"
        } else {
            "`"
        };
        let (code, after) = rest[start + mark.len()..].split_once(mark).unwrap();
        found.push(code.trim());
        rest = after;
    }
    found
}

/// Each text of a row has the row's hint, and the text to write in its place has no error. The rows have all hints of `help.rs`.
#[test]
fn each_hint_has_a_row() {
    let page = std::fs::read_to_string(PAGE).expect("the page");
    let section = page
        .split("\n## Settings: hints\n")
        .nth(1)
        .expect("the section");
    let section = section.split("\n## ").next().unwrap();
    let mut hints = BTreeSet::new();
    for row in section.lines().filter(|line| line.starts_with("| `")) {
        let cells: Vec<_> = row.trim_matches('|').split(" | ").collect();
        let [hint, texts, written] = cells[..] else {
            panic!("{row}")
        };
        let [hint] = codes(hint)[..] else {
            panic!("{row}")
        };
        let (texts, call) = texts.split_once(" with ").unwrap_or((texts, ""));
        for text in codes(texts) {
            let of_settings = parse_settings(text).err().and_then(|error| error.help());
            let of_config = parse_config(text).err().and_then(|error| error.help());
            match call {
                "`parse_settings`" => assert_eq!(of_settings, Some(hint), "{text}"),
                "`parse_config`" => assert_eq!(of_config, Some(hint), "{text}"),
                _ => assert_eq!((of_settings, of_config), (Some(hint), Some(hint)), "{text}"),
            }
        }
        for text in codes(written) {
            assert!(parse_config(text).is_ok(), "{text}");
        }
        assert!(hints.insert(hint.to_string()), "{row}");
    }
    let help = std::fs::read_to_string(concat!(env!("CARGO_MANIFEST_DIR"), "/src/help.rs"));
    let strings = |text: &str| -> BTreeSet<String> {
        let strings = source(text).filter_map(|item| match item.unwrap().1 {
            Lit::Str(string) => Some(string.value().into_owned()),
            _ => None,
        });
        strings.filter(|it| it.contains(' ')).collect()
    };
    assert_eq!(hints, strings(&help.unwrap()));
}
