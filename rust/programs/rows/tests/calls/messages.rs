//! Tests the message of each kind of error, and the `Debug` output of some values.

use crate::rows::{check, check_headings};
use crate::shown::{error, HERE};
use navyspindle_programs::rattle_std::alloc::Global;
use navyspindle_programs::rattle_std::string::String as Text;
use navyspindle_programs::rattle_std::vec::Vec as Bytes;
use navyspindle_programs::rl_grammar::shape;
use navyspindle_programs::rl_program::Command;
use navyspindle_programs::rl_tokens::{CString, Error, ErrorKind, LexError, LexKind};

const TABLE: &str = include_str!("messages.rows");

#[test]
fn headings() {
    check_headings(TABLE, include_str!("messages.rs"));
}

#[test]
fn lexer() {
    check(TABLE, "lex_kinds", |_| {
        let kinds = [
            LexKind::UnclosedComment,
            LexKind::DocComment,
            LexKind::UnclosedQuote,
            LexKind::UnclosedGroup,
            LexKind::UnmatchedClose,
            LexKind::Lifetime,
            LexKind::RawIdentifier,
            LexKind::StrayCharacter,
            LexKind::TooDeep,
            LexKind::Memory,
        ];
        kinds
            .map(|kind| format!("{:?}: {kind}\n", LexError { kind, at: 3 }))
            .concat()
    });
}

#[test]
fn errors() {
    check(TABLE, "kinds", |_| {
        let text = |text| Text::from_str(Global, text).unwrap();
        let kinds = [
            ErrorKind::Expected("a word"),
            ErrorKind::EndOfInput("a word"),
            ErrorKind::Unexpected,
            ErrorKind::Lex(LexKind::Lifetime),
            ErrorKind::Suffix(text("u8")),
            ErrorKind::NotInteger,
            ErrorKind::TooLarge,
            ErrorKind::NotFloat,
            ErrorKind::Repeated,
            ErrorKind::Number(text("too many")),
            ErrorKind::Memory,
        ];
        let kinds = kinds.map(|kind| Error { span: HERE, kind });
        kinds
            .map(|it| format!("{} {}", it.kind, error(&it)))
            .concat()
    });
}

/// Shows the `Debug` output of the C string of the text or its error, of the text's parts, and of the commands.
#[test]
fn debug_of_values() {
    check(TABLE, "debugs", |text| {
        let bytes = Bytes::from_slice(Global, text.as_bytes()).unwrap();
        let held = match CString::new(bytes) {
            Ok(held) => format!("{held:?}"),
            Err(rejected) => format!("{rejected:?}"),
        };
        let commands = [Command::Text, Command::Read, Command::Attr];
        let commands = commands.map(|it| format!("{it:?}")).join(" ");
        format!("{held}\n{:?}\n{commands}", shape(text))
    });
}
