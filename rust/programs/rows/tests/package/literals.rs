//! Compares single literals with the translated libraries: kind, value, suffix, text, and the functions of each kind.

use crate::{flaws, numbers, quoted};
use navyspindle::{write_byte, write_byte_str, write_char, write_str, Lit, LitBool};
use navyspindle_programs::rattle_std::alloc::Global;
use navyspindle_programs::rl_grammar::{self, Kind};
use navyspindle_programs::{rl_program, rl_tokens, rust_literals};
use std::collections::hash_map::DefaultHasher;
use std::hash::{BuildHasher, BuildHasherDefault};

pub type Proved = rust_literals::Lit;

/// Shows a literal of the package, in the form that `rl_tool` prints.
fn line_of(literal: &Lit) -> String {
    let contents = match literal {
        Lit::Str(string) => write_str(&string.value()),
        Lit::ByteStr(string) => write_byte_str(&string.value()),
        Lit::CStr(string) => write_byte_str(&string.value()).replacen('b', "c", 1),
        Lit::Byte(byte) => write_byte(byte.value()),
        Lit::Char(character) => write_char(character.value()),
        Lit::Int(number) => number.base10_digits().into_owned(),
        Lit::Float(number) => number.base10_digits().into_owned(),
        Lit::Bool(truth) => truth.value().to_string(),
        other => write_str(other.text()),
    };
    let suffix = match literal.suffix() {
        "" => "-".to_owned(),
        suffix if rl_tokens::ident::xid_ok(suffix) => suffix.to_owned(),
        suffix => write_str(suffix),
    };
    format!("{:?} {contents} {suffix}\n", literal.kind())
}

/// Shows a literal of the translated libraries, in the form that `rl_tool` prints.
fn proved_line(literal: &Proved) -> String {
    rl_program::output_line(Global, literal)
        .unwrap()
        .as_str()
        .to_owned()
}

pub fn proved_of(text: &str) -> Proved {
    let span = rl_tokens::Span::new(0, 0, text.len());
    let token = rl_tokens::Literal::from_text(Global, text, span).unwrap();
    let Ok(literal) = rust_literals::Lit::new(Global, token) else {
        panic!()
    };
    literal
}

/// Checks the properties that literals of all kinds have.
#[track_caller]
pub fn check_same(ours: &Lit, proved: &Proved) {
    let text = proved.text();
    assert_eq!(line_of(ours), proved_line(proved), "{text:?}");
    assert_eq!(
        (ours.text(), ours.suffix()),
        (text, proved.suffix()),
        "{text:?}"
    );
}

/// Compares the results of all methods of the package's literal `ours` with those of the proved libraries' literal.
#[track_caller]
pub fn check_closely(ours: &Lit, proved: &Proved) {
    check_same(ours, proved);
    let text = proved.text();
    let word = proved
        .kind()
        .map_or("text without a value", Kind::description);
    assert_eq!(ours.kind().to_string(), word, "{text:?}");
    assert_eq!(
        (&*ours.to_string(), &*ours.clone().into_text()),
        (text, text)
    );
    assert_eq!(ours.clone().into_suffix(), proved.suffix(), "{text:?}");
    assert_eq!(format!("{ours:*>9}"), format!("{text:*>9}"));
    let name = proved.kind().map_or("LitVerbatim", Kind::struct_name);
    assert_eq!(format!("{ours:?}"), format!("{name}({text:?})"));
    let Some(found) = rl_grammar::parse_literal(text) else {
        assert!(matches!(ours, Lit::Verbatim(_)), "{text:?}");
        flaws::check_verbatim(ours, proved);
        return;
    };
    quoted::check(ours, proved, &found);
    numbers::check(ours, proved, &found);
    if let Lit::Bool(truth) = ours {
        assert_eq!(truth.value(), found.truth, "{text:?}");
        assert_eq!(truth.suffix_range(), text.len()..text.len(), "{text:?}");
        assert_eq!(LitBool::parse(text).map(|it| it.value()), Ok(found.truth));
    }
}

/// Checks a text as one literal, by `syn`'s grammar and by Rust's grammar.
pub fn check_literal(text: &str) {
    let (ours, proved) = (Lit::of_text(text), proved_of(text));
    check_same(&ours, &proved);
    flaws::check_parse(text, &proved);
    flaws::check_file(text);
}

/// Checks all functions of a text as one literal, borrowed and owned.
pub fn check_text(text: &str) {
    let proved = proved_of(text);
    check_closely(&Lit::of_text(text), &proved);
    check_closely(&Lit::of_text(text.to_owned()), &proved);
    check_closely(&Lit::of_text(text).into_owned(), &proved);
    flaws::check_closely(text, &proved);
    flaws::check_file(text);
    quoted::check_written(text);
}

/// Checks that two literals, borrowed or owned, are equal if and only if their texts are equal.
pub fn check_equal(a: &str, b: &str) {
    let hash_of = |literal: &Lit| BuildHasherDefault::<DefaultHasher>::default().hash_one(literal);
    let (ours, other) = (Lit::of_text(a), Lit::of_text(b.to_owned()));
    assert_eq!(ours == other, a == b, "{a:?} {b:?}");
    assert_eq!(hash_of(&ours) == hash_of(&other), a == b, "{a:?} {b:?}");
}
