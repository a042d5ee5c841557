//! Compares settings of the package with those of the translated libraries: the entries of a text, and settings by name and type.

use crate::flaws::proved_flaw_in_file;
use crate::lists::{range_at, words_of};
use crate::literals::{check_same, Proved};
use navyspindle::{parse_settings, Key, Lit, Number, SettingError, SettingErrorKind, Settings};
use navyspindle_programs::rattle_std::alloc::Global;
use navyspindle_programs::rl_attributes::{self, Attrs};
use navyspindle_programs::rl_tokens::{parse_all, Error, ErrorKind};
use std::fmt::{Display, Write};
use std::ops::Range;

const EXPECTED: &str = "as it is expected";

/// Names that the tests request. Some are prefixes of others, or differ only in case.
pub const NAMES: [&str; 16] = [
    "a",
    "b",
    "A",
    "port",
    "Port",
    "por",
    "ports",
    "x1",
    "é",
    "_",
    "true",
    "max_size",
    "max_size_of",
    "max_size_of_it",
    "maximum_size_of_a",
    "maximum_size_of_b",
];

/// Shows the package's parse result of settings, in the form that `navyspindle_rows::settings` expects.
pub fn reading(text: &str) -> String {
    match parse_settings(text) {
        Ok(entries) => entries.iter().fold(String::new(), |mut out, it| {
            let (name, value) = (&it.name_range, &it.value_range);
            let _ = writeln!(out, "{} {name:?} {} {value:?}", it.name, it.value.text());
            out
        }),
        Err(error) => {
            let range = error.range();
            let words = error.to_string();
            let (words, _) = words
                .split_once(&format!(" at byte {}", range.start))
                .unwrap();
            format!("{words} at {range:?}\n")
        }
    }
}

/// Returns the printed error with its hint. The proved parser has no hints.
fn with_help(line: String, help: Option<&str>) -> String {
    match help {
        Some(help) => format!("{line}: {help}"),
        None => line,
    }
}

/// The value of a requested setting as text, or the error's message and range.
type Told = Result<Option<String>, (String, Range<usize>)>;

fn told<T: Display>(answer: Result<Option<T>, SettingError>) -> Told {
    match answer {
        Ok(value) => Ok(value.map(|it| it.to_string())),
        Err(error) => {
            let (words, range) = (error.kind().to_string(), error.range());
            let line = with_help(format!("{words} at byte {}", range.start), error.help());
            let printed = error.to_string();
            let hint = printed.strip_prefix(&line).expect(&printed);
            let is_hint = hint.starts_with(": did you mean `") && hint.ends_with("`?");
            let is_unknown = matches!(error.kind(), SettingErrorKind::Unknown(_));
            assert!(hint.is_empty() || is_unknown && is_hint, "{printed}");
            Err((words, range))
        }
    }
}

fn proved_told<T: Display>(answer: Result<Option<T>, rl_attributes::SettingError>) -> Told {
    match answer {
        Ok(value) => Ok(value.map(|it| it.to_string())),
        Err(error) => {
            let span = error.span();
            Err((error.to_string(), span.lo..span.hi))
        }
    }
}

/// Returns the error of a value that Rust rejects. The package reports this error before all others.
fn rejection_of(value: &Proved, setting: Key) -> Option<(String, Range<usize>)> {
    let text = value.text();
    let flaw = proved_flaw_in_file(text)?;
    let words = format!("{setting}: {}", flaw.kind.message());
    Some((words, range_in(value, flaw.lo..flaw.hi)))
}

/// Converts a range of a value to a range of the settings' text. If white space or comments follow the value's minus, the result is
/// the whole value.
fn range_in(value: &Proved, bytes: Range<usize>) -> Range<usize> {
    let span = value.span();
    if span.hi - span.lo == value.text().len() {
        span.lo + bytes.start..span.lo + bytes.end
    } else {
        span.lo..span.hi
    }
}

/// Returns the expected result for a string: an error if it has a suffix, and otherwise `answer`.
fn string_told(value: &Proved, setting: Key, answer: Told) -> Told {
    let suffix = value.suffix().len();
    if !matches!(value, Proved::Str(_)) || suffix == 0 {
        return answer;
    }
    let end = value.text().len();
    let words = format!("{setting}: unexpected suffix");
    Err((words, range_in(value, end - suffix..end)))
}

/// Returns the number that the package reads from the value's text. It must be equal to the proved parser's `answer`, unless the
/// value has a suffix or the number is infinite.
fn number_told<N: Number + Display>(value: &Proved, setting: Key, answer: Told) -> Told {
    let number = match Lit::of_text(value.text()) {
        // For a float type, an integer without a suffix is a value too.
        Lit::Int(literal) if literal.suffix().is_empty() && "0.5".parse::<N>().is_ok() => {
            return answer
        }
        Lit::Int(literal) => literal.value::<N>(),
        Lit::Float(literal) => literal.value::<N>(),
        _ => return answer,
    };
    number.map_or_else(
        |error| {
            let words = error.to_string();
            let (reason, _) = words.rsplit_once(" at byte ").unwrap();
            let words = format!("{setting}: {reason}");
            Err((words, range_in(value, error.range())))
        },
        |number| {
            if value.suffix().is_empty() {
                assert_eq!(answer, Ok(Some(number.to_string())));
            }
            Ok(Some(number.to_string()))
        },
    )
}

fn check_name(text: &str, ours: &Settings, proved: &Attrs, name: &'static str) {
    let expected = EXPECTED;
    let a = Key::new(name, expected);
    let b = rl_attributes::Setting { name, expected };
    let value = proved.get(name);
    assert_eq!(ours.get(name).is_some(), value.is_some(), "{text:?} {name}");
    let expect = |answer: Told, taken: fn(&Proved, Key, Told) -> Told| match value {
        Some(value) => match rejection_of(value, a) {
            Some(rejection) => Err(rejection),
            None => taken(value, a, answer),
        },
        None => answer,
    };
    let string = expect(proved_told(proved.string(Global, b)), string_told);
    assert_eq!(told(ours.string(a)), string, "{text:?} {name}");
    let truth = expect(proved_told(proved.bool(b)), |_, _, answer| answer);
    assert_eq!(told(ours.bool(a)), truth, "{text:?} {name}");
    let number = proved_told(proved.number::<u16>(Global, b));
    let number = expect(number, number_told::<u16>);
    assert_eq!(told(ours.number::<u16>(a)), number, "{text:?} {name}");
    let number = proved_told(proved.number::<f64>(Global, b));
    let number = expect(number, number_told::<f64>);
    assert_eq!(told(ours.number::<f64>(a)), number, "{text:?} {name}");
    let missing = proved_told::<u8>(Err(proved.missing_error(b)));
    assert_eq!(
        told::<u8>(Err(ours.missing_error(a))),
        missing,
        "{text:?} {name}"
    );
}

/// Checks that the package reports the first unknown name, or no error if all names are known.
fn check_known(text: &str, ours: &Settings, proved: &Attrs, known: &[&'static str]) {
    let expected = EXPECTED;
    let settings: Vec<_> = known.iter().map(|&name| Key::new(name, expected)).collect();
    let unknown = proved
        .entries()
        .iter()
        .find(|it| !known.contains(&it.name.as_str()));
    let answer = match unknown {
        Some(entry) => {
            let words = format!("unknown name `{}`", entry.name.as_str());
            Err((words, entry.span.lo..entry.span.hi))
        }
        None => Ok(None),
    };
    let ours = ours.check(&settings).map(|()| None::<u8>);
    assert_eq!(told(ours), answer, "{text:?} {known:?}");
}

fn check_asked(text: &str, proved: &Attrs) {
    let ours = Settings::read(text).unwrap();
    for name in NAMES {
        check_name(text, &ours, proved, name);
    }
    for known in [&NAMES[..], &NAMES[..5], &NAMES[3..12], &[]] {
        check_known(text, &ours, proved, known);
    }
}

/// Converts an error of the proved parser to the package's message, name and range.
fn said_of(text: &str, error: &Error) -> (String, String, Range<usize>) {
    let span = error.span;
    match &error.kind {
        ErrorKind::Lex(kind) => {
            let name = format!("{kind:?}");
            (
                words_of(&name).to_owned(),
                String::new(),
                range_at(text, span.lo, &name),
            )
        }
        ErrorKind::Repeated => {
            let name = format!(" `{}`", &text[span.lo..span.hi]);
            (error.kind.to_string(), name, span.lo..span.hi)
        }
        kind => (kind.to_string(), String::new(), span.lo..span.hi),
    }
}

/// Shows the entries, or the error.
fn shown(read: &Result<Attrs, Error>) -> Vec<String> {
    match read {
        Ok(attrs) => attrs
            .entries()
            .iter()
            .map(|it| {
                format!(
                    "{} {:?} {} {:?}",
                    it.name.as_str(),
                    it.span,
                    it.value.text(),
                    it.value.span()
                )
            })
            .collect(),
        Err(error) => vec![format!("{} {:?}", error.kind, error.span)],
    }
}

/// Checks the package's parse result of settings. Returns the number of entries, or `None` for an error. The expected result comes
/// from two translated parsers, one on tokens and one on token trees, which must agree.
pub fn check_settings(text: &str) -> Option<usize> {
    let proved = rl_attributes::read(Global, text, 0);
    assert_eq!(
        shown(&proved),
        shown(&parse_all::<Attrs, Global>(Global, text, 0)),
        "{text:?}"
    );
    match (parse_settings(text), proved) {
        (Ok(ours), Ok(proved)) => {
            assert_eq!(ours.len(), proved.entries().len(), "{text:?}");
            for (a, b) in ours.iter().zip(proved.entries()) {
                assert_eq!(a.name, b.name.as_str(), "{text:?}");
                assert_eq!(a.name_range, b.span.lo..b.span.hi, "{text:?}");
                let span = b.value.span();
                assert_eq!(a.value_range, span.lo..span.hi, "{text:?}");
                check_same(&a.value, &b.value);
            }
            check_asked(text, &proved);
            Some(ours.len())
        }
        (Err(ours), Err(proved)) => {
            let (words, name, range) = said_of(text, &proved);
            assert_eq!(
                ours.kind().to_string(),
                format!("{words}{name}"),
                "{text:?}"
            );
            assert_eq!(ours.range(), range, "{text:?}");
            let line = format!("{words}{name} at byte {}", range.start);
            assert_eq!(ours.to_string(), with_help(line, ours.help()), "{text:?}");
            let read = Settings::read(text).map(|_| None::<u8>);
            assert_eq!(told(read), Err((words + &name, range)), "{text:?}");
            None
        }
        (ours, proved) => panic!("{text:?}: {ours:?}, {:?}", proved.is_ok()),
    }
}
