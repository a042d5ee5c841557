//! Tests of attributes that are read from a text, outside of a macro.

use navyspindle::{Attrs, LitInt, LitStr, MacroError, MetaForm};

#[derive(Debug, PartialEq)]
struct Options {
    name: String,
    size: u8,
    aliases: Vec<String>,
    verbose: bool,
    long: Option<MetaForm>,
}

/// A function of a macro's author.
fn options(attrs: &Attrs) -> Result<Options, MacroError> {
    attrs.check(&["name", "size", "alias", "verbose", "long", "inner"])?;
    let aliases = match attrs.get("alias")? {
        Some(meta) => meta.literals::<LitStr>()?,
        None => Vec::new(),
    };
    Ok(Options {
        name: attrs
            .string("name")?
            .ok_or_else(|| attrs.missing_error("name"))?,
        size: attrs.number("size")?.unwrap_or(1),
        aliases: aliases.iter().map(|it| it.value().into_owned()).collect(),
        verbose: attrs.flag("verbose")?,
        long: attrs.get("long")?.map(|meta| meta.form()),
    })
}

fn read(text: &str) -> Result<Options, String> {
    let options = Attrs::parse_text(text).and_then(|attrs| options(&attrs));
    options.map_err(|error| error.to_string())
}

#[test]
fn entries_of_a_text() {
    let text = "name = r\"a\\n\", // a comment\n size = 0x1F_u8, alias(\"b\", \"\\x41\"), verbose, long = -x::<A, B>() < y";
    let expected = Options {
        name: "a\\n".into(),
        size: 31,
        aliases: vec!["b".into(), "A".into()],
        verbose: true,
        long: Some(MetaForm::Value),
    };
    assert_eq!(read(text), Ok(expected));
    let attrs = Attrs::parse_text("a = &'a M<K, [V; 2]>, r#type { b = -1 }, c::d").unwrap();
    let names: Vec<_> = attrs.entries().iter().map(|meta| meta.name()).collect();
    assert_eq!(names, ["a", "type", "c::d"]);
    let inner = attrs.list("type").unwrap().unwrap();
    assert_eq!(inner.number::<i8>("b").unwrap(), Some(-1));
    let number = inner.entries()[0].located::<LitInt>().unwrap();
    assert_eq!(number.text(), "-1");
    assert!(Attrs::parse_text(" // nothing\n")
        .unwrap()
        .entries()
        .is_empty());
}

#[test]
fn errors_have_the_messages_of_macros() {
    for (text, message) in [
        ("size = 1", "missing `name`"),
        ("nme = \"a\"", "unknown name `nme`: did you mean `name`?"),
        ("name = 1", "expected string literal, found integer literal"),
        ("name = \"a\", size = 256", "number out of range for u8"),
        ("name = \"a\", size = -x", "expected integer literal"),
        ("name = \"a\", name = \"b\"", "repeated name `name`"),
        ("name = \"a\" size", "expected `,`"),
        ("name = \"a\"x", "unexpected suffix `x`"),
        ("name = \"\\q\"", "unknown escape"),
        ("name: \"a\"", "expected `=`"),
        ("name = ", "unexpected end of input, expected a value"),
        ("name = \"a\", alias = x", "expected an array: `[..]`"),
        ("name = \"a\", verbose(1)", "unexpected list"),
        ("name : : x = 1", "expected `=`"),
        ("alias(\"a\"", "unexpected end of input"),
        ("alias(\"a\"]", "unexpected `]`"),
        ("name = \"a", "unexpected end of input"),
        (
            "a = I<A, B = C>::D",
            "ambiguous `<`: write `::<`, or a comparison in parentheses",
        ),
    ] {
        assert_eq!(read(text), Err(message.into()), "{text}");
    }
    let attrs = Attrs::parse_text("a = u8::MAX").unwrap();
    let error = attrs.value("a").unwrap_err();
    assert_eq!(error.to_string(), "a text has no tokens of the compiler");
}
