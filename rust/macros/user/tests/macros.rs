//! Tests of literals that rustc passes to procedural macros.

use navyspindle_macros::{
    again, byte_errors, changed, digits, entries_of, errors_of_tokens, hex_bytes, joined_slashes,
    literals, made_errors, named, only_string, placed, printed, settings, slow_calls, small,
    strings, strings_errors, sum, sum_error, text, whole, whole_string, without_brace, written,
};
use std::ffi::CStr;
use std::fmt::Debug;

/// Passes a literal on to a macro, in a group without delimiters.
macro_rules! passed {
    ($name:ident: $($e:literal),*) => {
        $name!($($e),*)
    };
}

#[test]
fn each_kind() {
    let found = literals!("a"x, b"a", c"a", b'a', 'a', 1u8, 1.5, true, r#"b"#);
    let kinds: Vec<&str> = found.iter().map(|it| it.0).collect();
    assert_eq!(
        kinds,
        [
            "string literal",
            "byte string literal",
            "C string literal",
            "byte literal",
            "character literal",
            "integer literal",
            "floating point literal",
            "boolean literal",
            "string literal"
        ]
    );
    assert_eq!((found[0].1, found[5].1), ("x", "u8"));
    assert_eq!((found[0].2, found[8].2), ("\"a\"x", "r#\"b\"#"));
}

#[test]
fn with_a_minus() {
    let found = literals!(-1, -2.5f32, -0xFF_u8);
    assert_eq!(found.map(|it| it.2), ["-1", "-2.5f32", "-0xFF_u8"]);
}

/// Integers above 128 bits that are floats by their suffix.
#[test]
fn large_floats() {
    let found = literals!(
        340282366920938463463374607431768211456f64,
        -340282366920938463463374607431768211456_f32
    );
    assert_eq!(
        found.map(|it| it.2),
        [
            "340282366920938463463374607431768211456f64",
            "-340282366920938463463374607431768211456_f32"
        ]
    );
    assert_eq!(found[0].0, "text without a value");
    assert_eq!(
        again!(-340282366920938463463374607431768211456f64),
        -340282366920938463463374607431768211456f64
    );
}

#[test]
fn passed_on() {
    let found = passed!(literals: "a", -1, true, 'x');
    assert_eq!(found.map(|it| it.2), ["\"a\"", "-1", "true", "'x'"]);
    assert_eq!(passed!(sum: 0x10, -1), 15);
}

#[test]
fn values() {
    assert_eq!(hex_bytes!("0A 0b\x20fF"), [10_u8, 11, 255]);
    assert_eq!(sum!(1, 0x_ff_u8, -1_00), 156);
    assert_eq!(sum!(), 0);
    assert_eq!(
        (again!(-1.5), again!(true), again!("a\n")),
        (-1.5, true, "a\n")
    );
}

#[test]
fn tokens_are_written_as_the_literal() {
    let texts = [
        printed!(1_000),
        printed!(0x_Fu8),
        printed!(1_0.5e+1_0),
        printed!("\x41"),
        printed!(r#"a"#),
        printed!(true),
    ];
    assert_eq!(
        texts,
        [
            "1_000",
            "0x_Fu8",
            "1_0.5e+1_0",
            "\"\\x41\"",
            "r#\"a\"#",
            "true"
        ]
    );
}

#[test]
fn texts_of_tokens() {
    assert_eq!(
        text!(a = [1, "b"], {'c} (x)),
        "a = [ 1 , \"b\" ] , { 'c } ( x ) "
    );
    assert_eq!(text!(), "");
}

#[test]
fn errors() {
    assert_eq!(
        sum_error!(1, 'a'),
        "expected integer literal, found character literal"
    );
    assert_eq!(sum_error!(1 2), "expected `,`");
    assert_eq!(sum_error!(1, -"a"), "expected a number after the minus");
    assert_eq!(sum_error!(--1), "expected integer literal");
    assert_eq!(
        sum_error!(-340282366920938463463374607431768211456),
        "integer above 128 bits"
    );
    assert_eq!(sum_error!(word), "expected integer literal");
    assert_eq!(sum_error!((1)), "expected integer literal");
    assert_eq!(
        sum_error!(1u9, 99999999999999999999999999999999999999999),
        "integer above 128 bits"
    );
    assert_eq!(
        sum_error!(340282366920938463463374607431768211455),
        "number too large to fit in target type"
    );
}

/// A group without delimiters that is invalid, because it has a minus of its own or contains more than a literal.
#[test]
fn errors_inside_of_groups() {
    macro_rules! negative {
        ($name:ident: $e:literal) => {
            $name!(-$e)
        };
    }
    macro_rules! passed_expression {
        ($name:ident: $e:expr) => {
            $name!($e)
        };
    }
    assert_eq!(negative!(sum: 1), -1);
    assert_eq!(
        negative!(sum_error: -1),
        "expected a number after the minus"
    );
    assert_eq!(passed_expression!(sum: 0x10), 16);
    assert_eq!(
        passed_expression!(sum_error: 1 + 2),
        "expected integer literal"
    );
}

#[test]
fn places() {
    let found = placed!(1, -1.5, true, "a", false);
    assert_eq!(found[0], ("1", "1", &["1"] as &[&str]));
    assert_eq!(found[1], ("-1.5", "1.5", &["1.5", "1.5"] as &[&str]));
    assert_eq!(found[2], ("true", "true", &["true"] as &[&str]));
    assert_eq!(found[3], ("\"a\"", "\"a\"", &["\"a\""] as &[&str]));
    assert_eq!(found[4], ("false", "false", &["false"] as &[&str]));
}

#[test]
fn errors_have_a_place_and_others_after_them() {
    let found = byte_errors!(b'a' 1 'a' true word);
    let expected = "expected byte literal, found ";
    assert_eq!(
        found,
        [
            (&*format!("{expected}integer literal"), "1", 1),
            (&*format!("{expected}character literal"), "'a'", 1),
            (&*format!("{expected}boolean literal"), "true", 1),
            ("expected byte literal", "word", 1),
            (&*format!("{expected}integer literal"), "1", 4),
        ]
    );
    let (made, padded) = made_errors!(first second);
    assert_eq!(
        made,
        [
            ("one", "second", 1),
            ("two", "first", 1),
            (
                "expected C string literal, found floating point literal",
                "second",
                1
            ),
            ("three", "second", 1),
            ("four", "second", 2),
        ]
    );
    assert_eq!(padded, "[ one] [one ] [t]");
}

/// An error is a call in braces, which can be an item too, of the macro in `core`. rustc decides which spaces it prints between
/// tokens, so they are removed.
#[test]
fn errors_are_calls_of_compile_error() {
    let call = "::core::compile_error!{\"unexpected end of input, expected literal\"}";
    assert_eq!(printed!().replace(' ', ""), call.replace(' ', ""));
}

#[test]
fn texts_that_are_no_tokens() {
    assert_eq!(
        errors_of_tokens!(here there),
        [
            ("not a literal", "here", 1),
            ("invalid digit for this base", "here", 1),
            ("unknown escape", "here", 1),
            ("expected a digit after `-`", "here", 1),
        ]
    );
}

#[test]
fn the_literal_that_is_the_whole_input() {
    macro_rules! passed {
        ($e:literal) => {
            whole_string!($e)
        };
    }
    assert_eq!((whole!(0x1F), whole!(-1.5), whole!(true)), (31, -1.5, true));
    assert_eq!((whole_string!("a\x41"), passed!("b")), ("aA", "b"));
    assert_eq!(whole!(1, 2), [("unexpected token", ",", ",")]);
    let (second, first) = ("\"b\"", "expected string literal, found integer literal");
    assert_eq!(
        whole_string!("a" "b"),
        [("unexpected token", second, second)]
    );
    assert_eq!(whole_string!(-1), [(first, "-", "1")]);
    let [(message, ..)] = whole_string!();
    assert_eq!(message, "unexpected end of input, expected string literal");
}

#[test]
fn the_only_literal_has_a_span() {
    macro_rules! passed {
        ($e:literal) => {
            only_string!($e)
        };
    }
    assert_eq!(only_string!("a\x41"), (r#""a\x41""#, r#""a\x41""#));
    assert_eq!(passed!(r"b"), (r#"r"b""#, r#"r"b""#));
    assert_eq!(only_string!("a",), [("unexpected token", ",", ",")]);
    let message = "expected string literal, found integer literal";
    assert_eq!(only_string!(-1), [(message, "-", "1")]);
    let [(message, ..)] = only_string!();
    assert_eq!(message, "unexpected end of input, expected string literal");
}

#[test]
fn errors_inside_of_strings() {
    assert_eq!(without_brace!("a\x41"), "aA");
    let text = r#""\x41é{b}""#;
    let message = "unexpected brace\n\"\\x41é{b}\"\n      ^";
    assert_eq!(without_brace!("\x41é{b}"), [(message, text, text)]);
    let message = "expected string literal, found integer literal";
    assert_eq!(without_brace!(-1), [(message, "-", "1")]);
}

#[test]
fn literals_of_a_list() {
    assert_eq!(
        digits!(a(1, -0x2,)),
        [("1", "1", "1"), ("-0x2", "-", "0x2")]
    );
    assert_eq!(digits!(a = [3]), [("3", "3", "3")]);
    let none: [(&str, &str, &str); 0] = digits!(a[]);
    assert_eq!(none, []);
    assert_eq!(digits!(a(1, -10)), [("expected a digit", "-", "10")]);
    assert_eq!(digits!(a(1; 2)), [("expected `,`", ";", ";")]);
    let message = "expected integer literal, found string literal";
    assert_eq!(digits!(a("b")), [(message, "\"b\"", "\"b\"")]);
    assert_eq!(digits!(a = -1), [("expected an array: `[..]`", "-", "1")]);
    assert_eq!(digits!(a), [("expected a list: `a(..)`", "a", "a")]);
}

/// Without `at`, these errors would be at the macro's call.
#[test]
fn errors_of_values_move_to_a_literal() {
    assert_eq!((small!(0x1F), small!(7u8)), (31, 7));
    let message = "number out of range for u8";
    assert_eq!(small!(256), [(message, "256", "256")]);
    // The span is that of the number, without the minus.
    let message = "minus before a number of u8";
    assert_eq!(small!(-1), [(message, "1", "1")]);
    assert_eq!(small!(1i8), [("suffix that isn't u8", "1i8", "1i8")]);
}

#[test]
fn values_end_at_a_comma() {
    let found = entries_of!(
        "a": f(1, 2) + [3, 4][0],
        -1: Vec::<(u8, u8)>::new(),
        'c': |a, b| a < b,
        true: 1
    );
    let expected = [
        ("\"a\"", "f(1,2)+[3,4][0]"),
        ("-1", "Vec::<(u8,u8)>::new()"),
        ("'c'", "|a,b|a<b"),
        ("true", "1"),
    ];
    assert_eq!(found, expected);
    assert_eq!(entries_of!(1: , 2: 3), [("expected a value", ",", ",")]);
    let [(message, ..)] = entries_of!(1:);
    assert_eq!(message, "unexpected end of input, expected a value");
}

#[test]
fn several_errors() {
    strings!("a", r"b", "c");
    let errors = strings_errors!("a", 1u8, "b", -0x10, 'c');
    let expected = [
        (
            "expected string literal, found integer literal",
            "1u8",
            "1u8",
        ),
        (
            "expected string literal, found integer literal",
            "-",
            "0x10",
        ),
        (
            "expected string literal, found character literal",
            "'c'",
            "'c'",
        ),
    ];
    assert_eq!(errors, expected);
    let none: [(&str, &str, &str); 0] = strings_errors!("a");
    assert_eq!(none, []);
}

#[test]
fn errors_after_a_minus_have_its_place_too() {
    let [(message, first, last)] = strings_errors!(-"a");
    assert_eq!(message, "expected a number after the minus");
    assert_eq!((first, last), ("-", "\"a\""));
    assert_eq!(strings_errors!(-), [("expected string literal", "-", "-")]);
    // The number without its minus isn't a literal either.
    let [(_, first, last)] = strings_errors!(-340282366920938463463374607431768211456);
    assert_eq!(
        (first, last),
        (
            "340282366920938463463374607431768211456",
            "340282366920938463463374607431768211456"
        )
    );
}

/// rustc reads the literals that the package writes as the same values as those that its own functions write.
#[test]
#[allow(clippy::all, clippy::pedantic)]
fn written_values() {
    fn same<T: PartialEq + Debug>(pairs: &[(T, T)], least: usize) {
        assert!(pairs.len() >= least, "{}", pairs.len());
        for (theirs, ours) in pairs {
            assert_eq!(theirs, ours);
        }
    }
    same::<&str>(written!(str), 900);
    same::<&[u8]>(written!(byte_str), 600);
    same::<&CStr>(written!(c_str), 600);
    same::<char>(written!(char), 30);
    same::<u8>(written!(byte), 256);
    macro_rules! numbers {
        ($($type:ident $least:literal)*) => {
            $(same::<$type>(written!($type), $least);)*
        };
    }
    numbers!(u8 4000 u16 7000 u32 14000 u64 28000 u128 50000 usize 28000);
    numbers!(i8 4000 i16 7000 i32 14000 i64 28000 i128 50000 isize 28000);
    same::<u32>(written!(f32), 150);
    same::<u64>(written!(f64), 150);
}

#[test]
fn settings_of_a_macro() {
    let entries = settings!(name = "x", size = -0x10u8, r#"a"# = 1);
    assert_eq!(
        entries,
        ("expected identifier", r##"r#"a"#"##, r##"r#"a"#"##)
    );
    let entries = settings! { name = "x", size = -0x10i8, on = true, };
    assert_eq!(entries[0], ("name", r#""x""#, "name", "", r#""x""#));
    assert_eq!(entries[1], ("size", "-0x10i8", "size", "-", "0x10i8"));
    assert_eq!(entries[2], ("on", "true", "on", "", "true"));
    let entries = settings!(size = -1, name = "-1");
    assert_eq!(entries[0], ("size", "-1", "size", "-", "1"));
    assert_eq!(entries[1], ("name", r#""-1""#, "name", "", r#""-1""#));
    let none: [(&str, &str, &str, &str, &str); 0] = settings!();
    assert_eq!(none, []);
    macro_rules! passed {
        ($value:literal) => {
            settings!(value = $value)
        };
    }
    assert_eq!(passed!(-1.5)[0].1, "-1.5");
}

#[test]
fn errors_of_settings() {
    assert_eq!(settings!(a = 1, b = 2, a = 3).0, "repeated name `a`");
    assert_eq!(settings!(a = 1 b = 2), ("expected `,`", "b", "b"));
    assert_eq!(settings!(a = (1, [2])), ("expected literal", "(", ")"));
    assert_eq!(settings!(a == 1), ("expected literal", "=", "="));
    // The two slashes aren't read as a comment, so no token after them is lost.
    assert_eq!(joined_slashes!(), "expected identifier");
    assert_eq!(
        settings!(a = 'b).0,
        "unexpected lifetime: a string has double quotes"
    );
    assert_eq!(
        settings!(a),
        ("unexpected end of input, expected `=`", "a", "a")
    );
}

#[test]
fn settings_by_name() {
    assert_eq!(named!(name = "a\x41", size = 0x10u8), ("aA", 16));
    assert_eq!(named!(name = r"a"), ("a", 1));
    let message = "size: expected an integer from 0 to 255: minus before a number of u8";
    assert_eq!(named!(name = "a", size = -1), (message, "-", "1"));
    let message = "size: expected an integer from 0 to 255: number out of range for u8";
    assert_eq!(named!(size = 256, name = "a"), (message, "256", "256"));
    assert_eq!(named!(nme = "a"), ("unknown name `nme`", "nme", "nme"));
    assert_eq!(
        named!(name = b"a"),
        ("name: expected a string", "b\"a\"", "b\"a\"")
    );
    assert_eq!(
        named!(size = 1),
        ("missing name: expected a string", "1", "1")
    );
    assert_eq!(
        named!(name = "a" size = 1),
        ("expected `,`", "size", "size")
    );
    // The range of this error is empty, and begins where the number ends.
    let message = "size: expected an integer from 0 to 255: integer above 128 bits";
    let large = "340282366920938463463374607431768211456";
    assert_eq!(
        named!(size = 340282366920938463463374607431768211456, name = "a"),
        (message, large, large)
    );
    // An input without tokens is an error at the macro's call.
    let (message, first, last) = named!();
    assert_eq!(message, "missing name: expected a string");
    assert!(first.starts_with("named!") && first == last, "{first}");
}

#[test]
fn the_time_grows_with_the_input() {
    assert_eq!(slow_calls!(), "");
}

#[test]
fn values_keep_their_state() {
    let changed: &[&str] = &changed!();
    assert_eq!(changed, [""; 0]);
}
