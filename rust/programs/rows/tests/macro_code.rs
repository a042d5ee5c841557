//! Tests `--bad` on literals inside macro calls, `macro_rules!` definitions and attributes. rustc 1.95 accepts any suffix and any
//! number there, because only the code that a macro expands to has to be valid. Every expected position is counted by hand.

use navyspindle_rows::command::run;

/// The options of a check that treats literals in macro code like all other literals.
const ALL: [&str; 3] = ["--bad", "--macros", "all"];

/// Returns the output for a source on standard input.
fn printed(words: &[&str], text: &str) -> String {
    let (out, _, errors) = run(words, text);
    assert_eq!(errors, "", "{text}");
    out
}

/// Sources with errors only inside macro code, and the lines for these errors with `--macros all`.
const INSIDE: [(&str, &str); 12] = [
    ("m!(1u9)", "3..6 error: unknown suffix: 1u9\n"),
    ("m![1u9]", "3..6 error: unknown suffix: 1u9\n"),
    ("m! {1u9}", "4..7 error: unknown suffix: 1u9\n"),
    ("a::r#m /**/ ! (1u9)", "15..18 error: unknown suffix: 1u9\n"),
    ("m!(256u8)", "3..8 error: out of its type's range: 256u8\n"),
    ("m!(1e400)", "3..8 error: out of its type's range: 1e400\n"),
    (
        "m!(\"a\"q)",
        "3..7 error: only numbers have suffixes: \"a\"q\n",
    ),
    (
        "m!(340282366920938463463374607431768211456)",
        "42..42 error: integer above 128 bits: 340282366920938463463374607431768211456\n",
    ),
    ("#[a(1u9)]", "4..7 error: unknown suffix: 1u9\n"),
    ("#![a = 1u9]", "7..10 error: unknown suffix: 1u9\n"),
    (
        "macro_rules! m { () => { 1u9 } }",
        "25..28 error: unknown suffix: 1u9\n",
    ),
    (
        "m!(1u9, (2u9), [3u9] 4u9)",
        "3..6 error: unknown suffix: 1u9\n\
         9..12 error: unknown suffix: 2u9\n\
         16..19 error: unknown suffix: 3u9\n\
         21..24 error: unknown suffix: 4u9\n",
    ),
];

#[test]
fn macro_code_may_have_any_suffix_and_value() {
    for (text, lines) in INSIDE {
        assert_eq!(printed(&["--bad"], text), "", "{text}");
        assert_eq!(printed(&ALL, text), lines, "{text}");
    }
}

/// Sources with errors that rustc's lexer reports also inside macro code, or that are outside of it.
const REPORTED: [(&str, &str); 11] = [
    ("m!(\"\\q\")", "5..6 error: unknown escape: \\q\n"),
    ("m!(0b2)", "5..6 error: invalid digit for this base: 0b2\n"),
    ("m!(f\"x\")", "3..7 error: reserved prefix: f\"x\"\n"),
    ("m!(1u9 \"", "7..7 error: unclosed quote\n"),
    ("!(1u9)", "2..5 error: unknown suffix: 1u9\n"),
    ("if !x { 1u9 }", "8..11 error: unknown suffix: 1u9\n"),
    ("return !(1u9)", "9..12 error: unknown suffix: 1u9\n"),
    ("a != (1u9)", "6..9 error: unknown suffix: 1u9\n"),
    ("# (1u9)", "3..6 error: unknown suffix: 1u9\n"),
    ("m!(1u9); 2u9", "9..12 error: unknown suffix: 2u9\n"),
    (
        "m!((1u9) 2u9) 3u9 n!(4u9)",
        "14..17 error: unknown suffix: 3u9\n",
    ),
];

#[test]
fn other_errors_are_reported() {
    for (text, lines) in REPORTED {
        assert_eq!(printed(&["--bad"], text), lines, "{text}");
    }
}

/// With `--any-suffix`, `--macros` has no effect.
#[test]
fn any_suffix_is_everywhere() {
    for words in [&["--bad"][..], &ALL] {
        let words = [words, &["--any-suffix"]].concat();
        assert_eq!(printed(&words, "m!(1u9) 2u9"), "");
    }
}

/// A stray character inside a macro call is a finding, and doesn't end the call.
#[test]
fn stray_characters_stay() {
    let text = "m!(\u{20ac} 1u9) \u{20ac}";
    assert_eq!(
        printed(&["--bad", "--no-stray"], text),
        "3..6 error: stray character: \u{20ac}\n12..15 error: stray character: \u{20ac}\n"
    );
    assert_eq!(
        printed(&["--no-stray", "--bad", "--macros=all"], text),
        "3..6 error: stray character: \u{20ac}\n\
         7..10 error: unknown suffix: 1u9\n\
         12..15 error: stray character: \u{20ac}\n"
    );
}

/// If no errors are reported, macro code has the lines of other code.
#[test]
fn other_modes_list_all_literals() {
    let lines = "3..6 Int 1 u9\n8..11 Int 2 u9\n";
    for words in [&[][..], &["--no-stray"], &["--only", "Int"]] {
        assert_eq!(printed(words, "m!(1u9) 2u9"), lines);
    }
}

/// Valid literals before an invalid one change nothing: the position relative to macro calls follows from all tokens before it.
#[test]
fn valid_literals_are_passed() {
    let text = "1 m!(2 (3) 4u9 5) 6 7u9 n![8 [9u9]] 10u9";
    assert_eq!(
        printed(&["--bad"], text),
        "20..23 error: unknown suffix: 7u9\n36..40 error: unknown suffix: 10u9\n"
    );
    let call = format!("m!({} 1u9)", "1 ".repeat(50_000));
    assert_eq!(printed(&["--bad"], &call), "");
    assert_eq!(
        printed(&ALL, &call),
        "100004..100007 error: unknown suffix: 1u9\n"
    );
}

/// The error of a source is reported after valid literals and after macro calls.
#[test]
fn errors_of_sources_follow() {
    for text in ["m!(1u9) 2 \"", "m!(123) 2 \""] {
        assert_eq!(
            printed(&["--bad"], text),
            "10..10 error: unclosed quote\n",
            "{text}"
        );
    }
}

/// The state of macro calls is kept from one block of output lines to the next. A block has 65,536 bytes.
#[test]
fn calls_are_longer_than_a_block() {
    let inside = "1u9 \"\\q\" ".repeat(10_000);
    let lines = printed(&["--bad"], &format!("m!({inside}) 1u9"));
    assert_eq!(lines.lines().count(), 10_001);
    assert_eq!(lines.matches("unknown suffix").count(), 1);
    assert!(lines.ends_with("90005..90008 error: unknown suffix: 1u9\n"));
}
