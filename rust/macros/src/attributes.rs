//! Macros that read the entries of attributes.

use crate::{or_error, tokens_of};
use navyspindle::{
    next_attributes, next_literal_of, write_str, AtSpan, Attrs, Lit, LitChar, LitInt, LitStr,
    MacroError, Meta,
};
use proc_macro::{Delimiter, Group, Span, TokenStream, TokenTree};
use std::{panic, thread};

/// Returns the source text at a span, as a string literal.
fn source(span: Span) -> String {
    write_str(&span.source_text().expect("a source"))
}

/// Prints tokens as text without spaces. rustc decides which spaces it prints between tokens, so they are removed.
fn without_spaces(tokens: TokenStream) -> String {
    tokens.to_string().replace(' ', "")
}

/// Returns a slice of triples: for each error its message, and the source text at its first and at its last token.
fn shown_errors(error: MacroError) -> TokenStream {
    tokens_of(&format!("&{}", crate::shown_errors(error)))
}

/// Returns an entry's name, the source text at its span, its form and its tokens, as the source text of a tuple.
fn shown_entry(meta: &Meta) -> String {
    let (name, at) = (write_str(meta.name()), source(meta.span()));
    let (form, tokens) = match (meta.value(), meta.tokens()) {
        (Ok(value), Err(_)) => match meta.literal() {
            Some((literal, span)) => {
                let (text, value_offset) = (write_str(literal.text()), source(span));
                let next = next_literal_of::<LitInt>(&mut value.into_iter());
                for (_, span) in meta.literal_of::<LitInt>().into_iter().chain(next) {
                    assert_eq!(source(span), value_offset);
                }
                return format!("({name}, {at}, \"literal\", {text}, {value_offset}),");
            }
            None => ("value", value),
        },
        (Err(_), Ok(tokens)) => ("list", tokens),
        (Err(_), Err(_)) => ("flag", TokenStream::new()),
        (Ok(_), Ok(_)) => panic!("a value and a list"),
    };
    assert_eq!(format!("{:?}", meta.form()).to_lowercase(), form);
    let tokens = write_str(&without_spaces(tokens));
    format!("({name}, {at}, \"{form}\", {tokens}, \"\"),")
}

/// Returns a slice with a tuple for each entry of the input: its name, the source text at its span, its form, its tokens, and the
/// source text of its literal. If the input is invalid, the result is the errors.
pub fn entries(input: TokenStream) -> TokenStream {
    match Meta::parse_all(input) {
        Ok(metas) => {
            let shown: String = metas.iter().map(shown_entry).collect();
            tokens_of(&format!("&[{shown}]"))
        }
        Err(error) => shown_errors(error),
    }
}

/// Returns a string literal with the text that `Debug` prints for the entries of the input.
pub fn debugged(input: TokenStream) -> TokenStream {
    let metas = Meta::parse_all(input).expect("entries");
    tokens_of(&write_str(&format!("{metas:?}")))
}

const KNOWN: [&str; 7] = ["name", "size", "verbose", "short", "max", "inner", "alias"];

/// Returns the settings of the attribute as the source text of a tuple: the name, the size (1 by default), whether it is verbose,
/// the short name, the tokens of the value of `max`, the size in `inner`, and the number of aliases.
fn read(attrs: &Attrs) -> Result<String, MacroError> {
    attrs.check(&KNOWN)?;
    let name = attrs
        .string("name")?
        .ok_or_else(|| attrs.missing_error("name"))?;
    let size: u8 = attrs.number("size")?.unwrap_or(1);
    let short = attrs.literal_of::<LitChar>("short")?;
    let short = short.map_or('-', |(literal, _)| literal.value());
    let max = attrs.value("max")?.map_or_else(String::new, without_spaces);
    let inner: Option<f64> = match attrs.list("inner")? {
        Some(inner) => inner.number("size")?,
        None => None,
    };
    let aliases: Vec<String> = attrs
        .all("alias")
        .map(Meta::string)
        .collect::<Result<_, _>>()?;
    let inner = inner.map_or("None::<f64>".into(), |size| format!("Some({size:?}f64)"));
    let verbose = attrs.flag("verbose")?;
    let (name, max) = (write_str(&name), write_str(&max));
    let count = aliases.len();
    Ok(format!(
        "({name}, {size}u8, {verbose}, {short:?}, {max}, {inner}, {count}usize)"
    ))
}

/// Returns the result of [`read`] for the input of an attribute macro, or the errors.
pub fn options(input: TokenStream) -> TokenStream {
    match Attrs::parse(input).and_then(|attrs| read(&attrs)) {
        Ok(shown) => tokens_of(&shown),
        Err(error) => shown_errors(error),
    }
}

/// Returns the result of [`read`] for the input of an attribute macro.
pub fn checked(input: TokenStream) -> Result<TokenStream, MacroError> {
    Ok(tokens_of(&read(&Attrs::parse(input)?)?))
}

/// Returns the number of entries in the attributes `#[opt(..)]` before an item. The name `a::b` may not be repeated.
pub fn counted(item: TokenStream) -> Result<TokenStream, MacroError> {
    let metas = next_attributes(&mut item.into_iter().peekable())?;
    let attrs = Attrs::join("opt", &metas)?;
    attrs.get("a::b")?;
    let count = attrs.entries().len();
    Ok(tokens_of(&count.to_string()))
}

/// Returns the result of [`read`] for the input as the content of `#[..]`, or the errors.
pub fn attribute(input: TokenStream) -> TokenStream {
    let attrs = Meta::parse(input).and_then(|meta| meta.list());
    match attrs.and_then(|attrs| read(&attrs)) {
        Ok(shown) => tokens_of(&shown),
        Err(error) => shown_errors(error),
    }
}

/// Returns the result of [`read`] for all attributes `#[opt(..)]` before an item, the names of all its attributes, and the tokens after
/// them. If the attributes are invalid, the result is the errors.
pub fn joined(item: TokenStream) -> TokenStream {
    let mut trees = item.into_iter().peekable();
    let shown = next_attributes(&mut trees).and_then(|metas| {
        let read = read(&Attrs::join("opt", &metas)?)?;
        let names: String = metas
            .iter()
            .map(|meta| format!("{} ", meta.name()))
            .collect();
        let rest = write_str(&without_spaces(trees.collect()));
        Ok(format!("({read}, {}, {rest})", write_str(&names)))
    });
    match shown {
        Ok(shown) => tokens_of(&shown),
        Err(error) => shown_errors(error),
    }
}

/// Returns the name of a struct, and the entries of each of its attributes `#[described(..)]`.
fn described(item: TokenStream) -> Result<(String, Vec<Attrs>), MacroError> {
    let (mut trees, mut all, mut name) = (item.into_iter(), Vec::new(), String::new());
    while let Some(tree) = trees.next() {
        match &tree {
            TokenTree::Punct(mark) if mark.as_char() == '#' => {}
            TokenTree::Group(group) if group.delimiter() == Delimiter::Bracket => {
                all.extend(of_described(group)?);
            }
            TokenTree::Ident(word) if word.to_string() == "struct" => {
                name = trees.next().expect("a name").to_string();
            }
            _ => {}
        }
    }
    Ok((name, all))
}

fn of_described(brackets: &Group) -> Result<Option<Attrs>, MacroError> {
    let meta = Meta::parse(brackets.stream())?;
    (meta.name() == "described")
        .then(|| meta.list())
        .transpose()
}

/// Returns an array with a triple for each integer of the input's list, as [`crate::digits`] says.
pub fn digits(input: TokenStream) -> Result<TokenStream, MacroError> {
    let mut shown = String::new();
    let meta = Meta::parse(input)?;
    for number in meta.literals::<LitInt>()? {
        if number.magnitude() > 9 {
            return Err(number.error("expected a digit"));
        }
        let at: Vec<String> = number
            .to_token_stream()?
            .into_iter()
            .map(|it| source(it.span()))
            .collect();
        shown += &format!(
            "({}, {}, {}),",
            write_str(number.text()),
            at[0],
            at[at.len() - 1]
        );
    }
    Ok(tokens_of(&format!("[{shown}]")))
}

/// Implements `description()` for a struct, from its attributes `#[described(text = "..", level = 1)]`.
pub fn derive(item: TokenStream) -> TokenStream {
    or_error(described(item).and_then(|(name, all)| {
        let attrs = &all[0];
        let text = attrs.literal_of::<LitStr>("text")?;
        let (text, span) = text.ok_or_else(|| attrs.missing_error("text"))?;
        let level = attrs.literal_of::<LitInt>("level")?;
        let level = level.map_or(Ok(0), |(level, span)| level.value::<u8>().at(span))?;
        let text = Lit::from(text).to_token_stream(span)?;
        Ok(tokens_of(&format!(
            "impl {name} {{ fn description() -> (&'static str, u8) {{ ({text}, {level}) }} }}"
        )))
    }))
}

/// Returns the `MacroError` that `?` makes of a `ValueError`, combined with a copy of it that `at` moved to the input's last token.
/// The form is that of the errors of `entries`.
pub fn converted(input: TokenStream) -> TokenStream {
    let read = |input: TokenStream| -> Result<u8, MacroError> {
        let (literal, _) = next_literal_of::<LitInt>(&mut input.into_iter())?;
        Ok(literal.value::<u8>()?)
    };
    let mut error = read(input.clone()).expect_err("no number of 8 bits");
    let span = input.into_iter().last().expect("a token").span();
    error.combine(error.clone().at(span));
    // Many other errors are created here. Their spans must not change the spans of the first errors.
    for _ in 0..100 {
        drop((error.clone(), MacroError::new("other", Span::call_site())));
    }
    let other = MacroError::new("other", Span::call_site());
    let moved = thread::spawn(move || other.clone().to_string());
    assert_eq!(moved.join().expect("no panic"), "other");
    let words = panic_on_another_thread(MacroError::new("other", Span::call_site()));
    assert!(words.contains("procedural macro"), "{words}");
    shown_errors(error)
}

/// Returns an error at the value of each entry, in the form of the errors of `entries`.
pub fn at_values(input: TokenStream) -> TokenStream {
    let metas = Meta::parse_all(input).expect("entries");
    let errors = metas.iter().map(|meta| meta.value_error(meta.name()));
    shown_errors(MacroError::combine_all(errors).expect_err("an entry"))
}

/// Returns the message of the panic of `span` on another thread. There the span is that of the call of the thread's own macro. But
/// this thread has no macro, so that rustc's `Span::call_site` panics.
fn panic_on_another_thread(error: MacroError) -> String {
    let hook = panic::take_hook();
    panic::set_hook(Box::new(|_| {}));
    let asked = thread::spawn(move || _ = error.span()).join();
    panic::set_hook(hook);
    let words = asked.expect_err("the thread has no macro");
    match words.downcast::<String>() {
        Ok(words) => *words,
        Err(other) => (*other.downcast::<&str>().expect("a text")).to_string(),
    }
}
