//! Tests parsers and peeks on token trees, and parsers on the values of string literals.

use crate::rows::{check, check_headings};
use crate::shown::{at, debug_or_error, error, literal_of, trees_of, value_or_error, HERE, THERE};
use navyspindle_programs::rattle_std::alloc::{Allocator, Global};
use navyspindle_programs::rl_tokens::{
    parse_all, ByParse, Error, Group, Parse, ParseBuffer, Parser, Span, Token,
};
use navyspindle_programs::rust_literals::{
    Lit, LitBool, LitByte, LitByteStr, LitCStr, LitChar, LitFloat, LitInt, LitStr,
};

const TABLE: &str = include_str!("parsers.rows");

#[test]
fn headings() {
    check_headings(TABLE, include_str!("parsers.rs"));
}

/// Checks a type's name in messages, the result of its peek, the result of its parser, and the buffer's position after the parser.
fn check_parser<T: Parse<Global> + Token>(table: &str, heading: &str) {
    check(table, heading, |text| {
        let Some(stream) = trees_of(text, 0) else {
            return "no trees".to_owned();
        };
        let mut input = ParseBuffer::new(stream.trees(), Span::new(0, text.len(), text.len()));
        let peeked = input.peek::<T>();
        let parsed = value_or_error(input.parse::<T>(Global), |_| "ok\n".to_owned());
        format!(
            "{}, {peeked}: {parsed}next {}",
            T::display(),
            at(input.span())
        )
    });
}

#[test]
fn parsers() {
    check_parser::<Lit>(TABLE, "Lit");
    check_parser::<LitStr>(TABLE, "LitStr");
    check_parser::<LitByteStr>(TABLE, "LitByteStr");
    check_parser::<LitCStr>(TABLE, "LitCStr");
    check_parser::<LitByte>(TABLE, "LitByte");
    check_parser::<LitChar>(TABLE, "LitChar");
    check_parser::<LitInt>(TABLE, "LitInt");
    check_parser::<LitFloat>(TABLE, "LitFloat");
    check_parser::<LitBool>(TABLE, "LitBool");
    check_parser::<Sign>(TABLE, "Sign");
}

/// A parsable type that a caller defines: one punctuation character.
struct Sign {
    ch: char,
}

impl<A: Allocator> Parse<A> for Sign {
    fn parse(_alloc: A, input: &mut ParseBuffer<'_, A>) -> Result<Sign, Error<A>> {
        match input.punct() {
            Some(mark) => Ok(Sign { ch: mark.as_char() }),
            None => Err(input.error("sign")),
        }
    }
}

impl Token for Sign {
    fn peek<A: Allocator>(input: &ParseBuffer<'_, A>) -> bool {
        input.fork().punct().is_some()
    }

    fn display() -> &'static str {
        "sign"
    }
}

/// Parses literals and signs alternately, up to the end or an error.
fn turns_of(text: &str) -> Result<String, (String, Error)> {
    let stream = trees_of(text, 0).unwrap();
    let (mut input, mut out) = (
        ParseBuffer::new(stream.trees(), Span::call_site()),
        String::new(),
    );
    for _ in stream.trees() {
        match input.parse::<Lit>(Global) {
            Ok(literal) => out += &format!("{literal:?} "),
            Err(it) => return Err((out, it)),
        }
        match input.parse::<Sign>(Global) {
            Ok(sign) => out += &format!("{}\n", sign.ch),
            Err(it) => return Err((out, it)),
        }
        if input.is_empty() {
            return Ok(out + "end");
        }
    }
    Ok(out)
}

#[test]
fn turns() {
    check(TABLE, "turns", |text| {
        turns_of(text).unwrap_or_else(|(out, it)| out + &error(&it))
    });
}

/// Shows an integer and its span, or the error.
fn integer(answer: Result<LitInt, Error>) -> String {
    value_or_error(answer, |it| format!("{it} {}\n", at(it.span())))
}

/// Shows the integer that is parsed from a string's value.
#[test]
fn inside() {
    check(TABLE, "inside", |text| {
        match literal_of(text, HERE).unwrap() {
            Lit::Str(string) => integer(string.parse::<LitInt, Global>(Global)),
            _ => "no string".to_owned(),
        }
    });
}

/// A parser that a caller defines. It returns the spans of a group, of the literal and the group in it, and of the literal in the
/// inner group.
struct SpansOfGroup;

impl<A: Allocator> Parser<A> for SpansOfGroup {
    type Output = [Span; 4];

    fn parse(self, _alloc: A, input: &mut ParseBuffer<'_, A>) -> Result<[Span; 4], Error<A>> {
        let outer = group_of(input)?;
        let mut inside = ParseBuffer::new(outer.stream().trees(), THERE);
        let first = literal_in(&mut inside)?;
        let inner = group_of(&mut inside)?;
        let last = literal_in(&mut ParseBuffer::new(inner.stream().trees(), THERE))?;
        Ok([outer.span(), first, inner.span(), last])
    }
}

fn group_of<'a, A: Allocator>(input: &mut ParseBuffer<'a, A>) -> Result<&'a Group<A>, Error<A>> {
    input.group().ok_or_else(|| input.error("group"))
}

fn literal_in<A: Allocator>(input: &mut ParseBuffer<'_, A>) -> Result<Span, Error<A>> {
    match input.literal() {
        Some(literal) => Ok(literal.span()),
        None => Err(input.error("literal")),
    }
}

fn spans(answer: Result<[Span; 4], Error>) -> String {
    value_or_error(answer, |spans| spans.map(|it| at(it) + " ").concat() + "\n")
}

/// Shows the result of a caller's parser on a string's value.
#[test]
fn group() {
    check(TABLE, "group", |text| {
        match literal_of(text, HERE).unwrap() {
            Lit::Str(string) => spans(string.parse_with(Global, SpansOfGroup)),
            _ => "no string".to_owned(),
        }
    });
}

/// Parses a string's value with spans of the file that contains the string. Shows an integer, a group, and the integer after the
/// string's span is set.
#[test]
fn in_file() {
    check(TABLE, "in_file", |text| {
        let integer_of =
            |string: &LitStr| integer(string.parse_in_file(Global, ByParse::<LitInt>::new()));
        match parse_all::<LitStr, Global>(Global, text, 7) {
            Ok(mut string) => {
                let before = integer_of(&string);
                let group = spans(string.parse_in_file(Global, SpansOfGroup));
                string.set_span(THERE);
                before + &group + &integer_of(&string)
            }
            Err(it) => debug_or_error::<()>(Err(it)),
        }
    });
}
