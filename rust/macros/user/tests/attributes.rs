//! Tests of the entries of attributes, with tokens that rustc passes to macros.

use navyspindle_macros::{
    at_values, attribute, converted, debugged, entries, joined, options, Described,
};

type Entry = (
    &'static str,
    &'static str,
    &'static str,
    &'static str,
    &'static str,
);
type Errors = &'static [(&'static str, &'static str, &'static str)];

/// Returns the name, the form and the tokens of each entry.
fn forms(entries: &'static [Entry]) -> Vec<(&'static str, &'static str, &'static str)> {
    entries.iter().map(|it| (it.0, it.2, it.3)).collect()
}

#[test]
fn each_form() {
    let none: &[Entry] = entries!();
    assert!(none.is_empty());
    let found: &[Entry] = entries!(verbose, name = "x", inner(a = 1), max = u8::MAX,);
    assert_eq!(
        forms(found),
        [
            ("verbose", "flag", ""),
            ("name", "literal", "\"x\""),
            ("inner", "list", "a=1"),
            ("max", "value", "u8::MAX"),
        ]
    );
    let found: &[Entry] =
        entries!(a[1, 2], b { c }, d = -1, e = true, f = 'x', g = "y".to_string());
    assert_eq!(
        forms(found),
        [
            ("a", "list", "1,2"),
            ("b", "list", "c"),
            ("d", "literal", "-1"),
            ("e", "literal", "true"),
            ("f", "literal", "'x'"),
            ("g", "value", "\"y\".to_string()"),
        ]
    );
    // The span of a literal is that of its own token, without the minus.
    assert_eq!((found[2].4, found[3].4), ("1", "true"));
    assert_eq!(
        debugged!(a, b::c = 1, d(e), r#f = "g".h()),
        "[a, b::c = .., d(..), f = ..]"
    );
}

#[test]
fn names() {
    let found: &[Entry] = entries!(r#type = 1, r#fn, type, a::b::c = 2, ::d, crate::e, r#f::r#g);
    let names: Vec<_> = found.iter().map(|it| (it.0, it.1)).collect();
    assert_eq!(
        names,
        [
            ("type", "r#type"),
            ("fn", "r#fn"),
            ("type", "type"),
            ("a::b::c", "a"),
            ("::d", ":"),
            ("crate::e", "crate"),
            ("f::g", "r#f"),
        ]
    );
}

#[test]
fn commas_that_end_no_value() {
    let found: &[Entry] = entries! {
        a = HashMap::<u8, Vec<u8>>::new(),
        b = <T as Into<A, B>>::into,
        c = |x, y| x < y,
        d = move |x: &str| -> Result<u8, String> { Ok(1) },
        e = [1, 2],
        f = x < y,
        g = f(1, 2) > z,
        h = move |x, y| x < y,
        i = static |x, y| x,
        j = async |x, y| x,
        k = async move |x, y| x < y,
        l = |x| -x < y,
        m = 1 > x
    };
    let names: Vec<_> = found.iter().map(|it| (it.0, it.2)).collect();
    let expected = [
        "a", "b", "c", "d", "e", "f", "g", "h", "i", "j", "k", "l", "m",
    ];
    assert_eq!(names, expected.map(|name| (name, "value")));
}

/// Types and casts, whose angle brackets follow a name, and comparisons beside them.
#[test]
fn commas_in_types() {
    let found: &[Entry] = entries! {
        a = x as &dyn I<A, Item = u8>,
        b = HashMap<String, Vec<(u8, u8)>>,
        c = fn(u8, u8) -> Map<u8, u8>,
        d = &'a mut dyn I<A, Item = B> + Send,
        e = I<A, B>::C,
        f = x as F<A, B = C, D = E>,
        g = x as M<T, U> - y,
        h = &|x, y| x,
        i = -<T as U<A, B>>::C,
        j = || |x, y| x,
        k = x < y, l = z > w,
        m = x < y, n = z >= w,
        o = x << y, p = z >> w,
        q = x < <T as U<A, B>>::C, r = z > -1,
        s = x < y, t = Map<K, V>,
        u = for<'a, 'b> fn(&'a M<K, V>) -> M<K, V>,
        v = dyn for<'a, 'b> I<A, Item = B> + Send,
        w = I::<A, Item = B>::C
    };
    let names: Vec<_> = found.iter().map(|it| (it.0, it.2)).collect();
    let expected = ('a'..='w').map(|name| (name.to_string(), "value"));
    let expected: Vec<_> = expected.collect();
    let expected: Vec<_> = expected.iter().map(|it| (&*it.0, it.1)).collect();
    assert_eq!(names, expected);
    assert_eq!(found[5].3, "xasF<A,B=C,D=E>");
}

/// Tokens that `macro_rules!` passes on are in groups without delimiters.
#[test]
fn passed_on() {
    macro_rules! passed {
        ($name:path, $literal:literal, $value:expr, $word:ident) => {
            entries!($name, $name = $literal, $word = $literal, b = $value, $word)
        };
    }
    let found: &[Entry] = passed!(a::b, -1, 1 + 2, c);
    let (names, forms): (Vec<_>, Vec<_>) = found.iter().map(|it| (it.0, it.2)).unzip();
    assert_eq!(names, ["a::b", "a::b", "c", "b", "c"]);
    assert_eq!(forms, ["flag", "literal", "literal", "value", "flag"]);
    assert_eq!((found[1].3, found[1].4), ("-1", "1"));
}

#[test]
fn errors_of_entries() {
    macro_rules! error {
        ($($input:tt)*) => {{
            let [error]: [(&str, &str, &str); 1] = *entries!($($input)*);
            error
        }};
    }
    assert_eq!(error!(a b), ("expected `,`", "b", "b"));
    assert_eq!(error!(a(1) b), ("expected `,`", "b", "b"));
    assert_eq!(error!("a"), ("expected identifier", "\"a\"", "\"a\""));
    assert_eq!(error!(a, , b), ("expected identifier", ",", ","));
    assert_eq!(
        error!(a::),
        ("unexpected end of input, expected identifier", ":", ":")
    );
    assert_eq!(error!(a:b), ("expected `=`", ":", ":"));
    assert_eq!(error!(a: "b"), ("expected `=`", ":", ":"));
    assert_eq!(error!(a::b: 1), ("expected `=`", ":", ":"));
    assert_eq!(error!(a:), ("expected `=`", ":", ":"));
    assert_eq!(error!(:a), ("expected identifier", ":", ":"));
    assert_eq!(error!(a : : b = 1), ("expected `=`", ":", ":"));
    assert_eq!(error!(: :a), ("expected identifier", ":", ":"));
    assert_eq!(error!(_ = 1), ("expected identifier", "_", "_"));
    assert_eq!(error!(a::_), ("expected identifier", "_", "_"));
    assert_eq!(error!(a = 1; b = 2), ("expected `,`", ";", ";"));
    assert_eq!(error!(a; b), ("expected `,`", ";", ";"));
    let message = "expected `,`: before `<` with a comma inside, write `::`";
    assert_eq!(error!(a = x < y, b > z), (message, ">", ">"));
    // One type or two comparisons.
    let message = "ambiguous `<`: write `::<`, or a comparison in parentheses";
    assert_eq!(error!(a = I < A, B = C > ::D), (message, "<", "<"));
    assert_eq!(error!(a = x < y, b = z > ::w), (message, "<", "<"));
    assert_eq!(
        error!(a =),
        ("unexpected end of input, expected a value", "=", "=")
    );
    assert_eq!(error!(a = , b), ("expected a value", ",", ","));
    assert_eq!(error!(a == 1), ("expected a value", "=", "="));
    assert_eq!(error!(a => 1), ("expected a value", ">", ">"));
}

#[test]
fn by_name() {
    assert_eq!(options!(name = "a\x41"), ("aA", 1, false, '-', "", None, 0));
    let read = options! {
        verbose, inner(size = 1.5), size = 0x10, max = u8::MAX, alias = "b", name = r"a", alias = "c", short = 'n'
    };
    assert_eq!(read, ("a", 16, true, 'n', "u8::MAX", Some(1.5), 2));
    assert_eq!(
        options!(name = "a", verbose = false),
        ("a", 1, false, '-', "", None, 0)
    );
    assert!(options!(name = "a", verbose = true).2);
    // An integer above 128 bits that is a float by its suffix.
    let large = options!(
        name = "a",
        inner(size = 340282366920938463463374607431768211456f64)
    );
    assert_eq!(large.5, Some(340282366920938463463374607431768211456f64));
    // An integer without a suffix is a float too.
    assert_eq!(options!(name = "a", inner(size = 1)).5, Some(1.0));
    assert_eq!(options!(name = "a", inner(size = -0x10)).5, Some(-16.0));
}

#[test]
fn errors_by_name() {
    macro_rules! error {
        ($($input:tt)*) => {{
            let [error]: [(&str, &str, &str); 1] = *options!($($input)*);
            error
        }};
    }
    let unexpected = "expected string literal, found integer literal";
    assert_eq!(error!(name = -1), (unexpected, "-", "1"));
    assert_eq!(
        error!(name = "a"x),
        ("unexpected suffix `x`", "\"a\"x", "\"a\"x")
    );
    assert_eq!(
        error!(name = concat!("a")),
        ("expected string literal", "concat", "concat")
    );
    assert_eq!(
        error!(name = "a", size = -x),
        ("expected integer literal", "x", "x")
    );
    assert_eq!(error!(name = "a" "b"), ("expected `,`", "\"b\"", "\"b\""));
    assert_eq!(error!(name = "a", size = 1 + 2), ("expected `,`", "+", "+"));
    assert_eq!(
        error!(name),
        ("expected a value: `name = ..`", "name", "name")
    );
    assert_eq!(error!(name("a")), ("expected a value", "(", "("));
    assert_eq!(
        error!(name = "a", name = "b"),
        ("repeated name `name`", "name", "name")
    );
    // The error is at the second of the two entries.
    assert_eq!(
        error!(name = "a", r#name = "b"),
        ("repeated name `name`", "r#name", "r#name")
    );
    assert_eq!(
        error!(name = "a", size = 256),
        ("number out of range for u8", "256", "256")
    );
    assert_eq!(
        error!(name = "a", size = -1),
        ("minus before a number of u8", "-", "1")
    );
    let unexpected = "expected integer literal, found string literal";
    assert_eq!(
        error!(name = "a", size = "1"),
        (unexpected, "\"1\"", "\"1\"")
    );
    let unexpected = "expected floating point literal, found character literal";
    assert_eq!(
        error!(name = "a", inner(size = 'x')),
        (unexpected, "'x'", "'x'")
    );
    assert_eq!(
        error!(name = "a", inner(size = 1u8)),
        ("suffix that isn't f64", "1u8", "1u8")
    );
    assert_eq!(
        error!(name = "a", size = 1.5),
        ("float where u8 is wanted", "1.5", "1.5")
    );
    assert_eq!(
        error!(name = "a", inner),
        ("expected a list: `inner(..)`", "inner", "inner")
    );
    assert_eq!(error!(name = "a", inner = 1), ("expected a list", "1", "1"));
    assert_eq!(
        error!(name = "a", verbose(1)),
        ("unexpected list", "(", "(")
    );
    let unexpected = "unexpected value: write `verbose` alone";
    assert_eq!(error!(name = "a", verbose = -1), (unexpected, "-", "1"));
    assert_eq!(
        error!(name = "a", verbose = "yes"),
        (unexpected, "\"yes\"", "\"yes\"")
    );
    // The error for a missing name is at the macro's call.
    let (message, first, last) = error!(size = 1);
    assert_eq!(message, "missing `name`");
    assert!(first.starts_with("options!") && first == last, "{first}");
}

#[test]
fn all_unknown_names_are_reported() {
    let errors: Errors = options!(nme = "a", size = 1, verbos, a::b(c), Size = 2);
    assert_eq!(
        errors,
        [
            ("unknown name `nme`: did you mean `name`?", "nme", "nme"),
            (
                "unknown name `verbos`: did you mean `verbose`?",
                "verbos",
                "verbos"
            ),
            ("unknown name `a::b`", "a", "b"),
            ("unknown name `Size`: did you mean `size`?", "Size", "Size"),
        ]
    );
}

#[test]
fn a_missing_name_is_reported_at_its_attribute() {
    assert_eq!(attribute!(opt(name = "a")).0, "a");
    let errors: Errors = attribute!(a::opt(size = 1));
    assert_eq!(errors, [("missing `name`", "a", "opt")]);
    let errors: Errors = attribute!(opt);
    assert_eq!(errors, [("expected a list: `opt(..)`", "opt", "opt")]);
    let errors: Errors = attribute!(opt(name = "a") more);
    assert_eq!(errors, [("unexpected token", "more", "more")]);
}

#[test]
fn attributes_of_an_item_are_joined() {
    let (read, names, rest) = joined! {
        /// A struct.
        #[opt(verbose, alias = "b")]
        #[other(size = 1)]
        #[opt(name = "a", size = 2)]
        #[opt[alias = "c"]]
        #[a::b = 1 + 2]
        pub struct A;
    };
    assert_eq!(read, ("a", 2, true, '-', "", None, 2));
    assert_eq!(
        (names, rest),
        ("doc opt other opt opt a::b ", "pubstructA;")
    );
    macro_rules! passed {
        ($($meta:meta)*; $item:item) => {
            joined!($(#[$meta])* $item)
        };
    }
    let (read, names, rest) = passed!(opt(name = "a") opt(); struct A;);
    assert_eq!(read, ("a", 1, false, '-', "", None, 0));
    assert_eq!((names, rest), ("opt opt ", "structA;"));
}

#[test]
fn errors_of_joined_attributes() {
    let errors: Errors = joined!(
        #[opt(name = "a", size = 1)]
        #[opt(size = 2)]
        struct A;
    );
    assert_eq!(errors, [("repeated name `size`", "size", "size")]);
    // A missing name is an error at the first attribute.
    let errors: Errors = joined!(
        #[other]
        #[a::opt(name = "a")]
        #[r#opt(size = 1)]
        #[opt(verbose)]
        struct A;
    );
    assert_eq!(errors, [("missing `name`", "r#opt", "r#opt")]);
    let errors: Errors = joined!(
        struct A;
    );
    assert_eq!(errors[0].0, "missing `name`");
    assert!(errors[0].1.starts_with("joined!"), "{}", errors[0].1);
    let errors: Errors = joined!(
        #[opt(a b)]
        #[opt(name = "a")]
        #[opt]
        #[opt = 1]
        struct A;
    );
    assert_eq!(
        errors,
        [
            ("expected `,`", "b", "b"),
            ("expected a list: `opt(..)`", "opt", "opt"),
            ("expected a list", "1", "1"),
        ]
    );
    let errors: Errors = joined!(
        #[opt(nme = 1)]
        #[opt(verbos)]
        struct A;
    );
    assert_eq!(
        errors,
        [
            ("unknown name `nme`: did you mean `name`?", "nme", "nme"),
            (
                "unknown name `verbos`: did you mean `verbose`?",
                "verbos",
                "verbos"
            ),
        ]
    );
    let errors: Errors = joined!(#[a b] struct A;);
    assert_eq!(errors, [("unexpected token", "b", "b")]);
    let errors: Errors = joined!(#(a) struct A;);
    assert_eq!(errors, [("expected `[`", "(a)", "(a)")]);
    let errors: Errors = joined!(#[a] #);
    assert_eq!(errors, [("expected `[`", "#", "#")]);
}

#[test]
fn errors_of_the_package_become_errors_of_macros() {
    let errors: Errors = converted!(300 here);
    let message = "number out of range for u8";
    assert_eq!(errors[0].0, message);
    assert!(errors[0].1.starts_with("converted!"), "{}", errors[0].1);
    assert_eq!(errors[1], (message, "here", "here"));
}

#[derive(Described)]
#[allow(dead_code)]
#[described(text = "a struct", level = 0x10)]
struct Thing;

/// Names are case-sensitive, so `Level` isn't the name of the level.
#[derive(Described)]
#[allow(dead_code)]
#[described(text = "another", Level = 0x10)]
struct Other;

#[test]
fn derived() {
    assert_eq!(Thing::description(), ("a struct", 16));
    assert_eq!(Other::description(), ("another", 0));
}

/// An error at a value has the span from the first token of the value to the last. The lists below have the text of these tokens.
#[test]
fn errors_at_values() {
    let errors: Errors = at_values!(a = -1, b = u16::MAX, c(d = 1), e, f = "x".to_string(), g::h);
    assert_eq!(
        errors,
        [
            ("a", "-", "1"),
            ("b", "u16", "MAX"),
            ("c", "(d = 1)", "(d = 1)"),
            ("e", "e", "e"),
            ("f", "\"x\"", "()"),
            ("g::h", "g", "h"),
        ]
    );
}
