//! Tests `rl_scan --allow`. Every expected position is counted by hand.

use navyspindle_rows::command::run;

/// Checks the output and the exit status of a run without an error.
fn check(words: &[&str], text: &str, lines: &[&str], status: u8) {
    let mut out = String::new();
    for line in lines {
        out.push_str(line);
        out.push('\n');
    }
    assert_eq!(
        run(words, text),
        (out, status, String::new()),
        "{words:?} {text:?}"
    );
}

/// A source with three errors, and their lines.
const ERRORS: &str = "\"\\q\" 1u9 0b2\n";
const LINES: [&str; 3] = [
    "2..3 error: unknown escape: \\q",
    "5..8 error: unknown suffix: 1u9",
    "11..12 error: invalid digit for this base: 0b2",
];

#[test]
fn errors_by_identifier() {
    let [escape, suffix, digit] = LINES;
    check(&["--bad"], ERRORS, &LINES, 1);
    check(
        &["--bad", "--allow", "unknown-suffix"],
        ERRORS,
        &[escape, digit],
        1,
    );
    check(
        &["--allow=unknown-escape", "--bad", "--allow=digit-of-base"],
        ERRORS,
        &[suffix],
        1,
    );
    let all = [
        "--bad",
        "--allow=unknown-escape",
        "--allow=digit-of-base",
        "--allow=unknown-suffix",
    ];
    check(&all, ERRORS, &[], 0);
    // An identifier of other errors.
    check(&["--bad", "--allow", "float-suffix"], ERRORS, &LINES, 1);
}

#[test]
fn allowed_errors_are_not_counted() {
    let allowed = ["--bad", "--allow", "unknown-suffix"];
    check(&[&allowed[..], &["-c"]].concat(), ERRORS, &["2"], 1);
    check(&[&allowed[..], &["-c"]].concat(), "1u9", &[], 0);
    check(&[&allowed[..], &["-l"]].concat(), "1u9", &[], 0);
    check(
        &[&allowed[..], &["-q", "--json", "--stats"]].concat(),
        ERRORS,
        &["{\"files\":1,\"files_with_findings\":1,\"findings\":2,\"errors\":0}"],
        1,
    );
    check(
        &[&allowed[..], &["-q", "--json", "--stats"]].concat(),
        "1u9",
        &["{\"files\":1,\"files_with_findings\":0,\"findings\":0,\"errors\":0}"],
        0,
    );
}

#[test]
fn one_literal_with_several_errors() {
    let text = "\"\\q\\xg\"";
    check(
        &["--bad", "--allow", "no-hexadecimal-digit"],
        text,
        &["2..3 error: unknown escape: \\q"],
        1,
    );
    let (out, status, _) = run(&["--bad", "--allow", "unknown-escape"], text);
    assert_eq!(status, 1);
    assert!(
        out.starts_with("5..6 error: expected a hexadecimal digit: "),
        "{out}"
    );
    assert_eq!(out.lines().count(), 1);
}

/// Sources with one error each, and its identifier.
const EACH: [(&str, &str); 7] = [
    ("f\"x\"", "reserved-prefix"),
    (
        "340282366920938463463374607431768211456",
        "integer-too-large",
    ),
    ("0b1f32", "based-float"),
    ("256u8", "out-of-range"),
    ("\"a\"q", "quoted-suffix"),
    ("1.0u8", "float-suffix"),
    ("b'\u{e9}'", "not-ascii"),
];

#[test]
fn errors_of_each_check() {
    for (text, id) in EACH {
        assert_eq!(run(&["--bad"], text).1, 1, "{text}");
        check(&["--bad", "--allow", id], text, &[], 0);
        let rest = format!("{text} 0b2");
        let at = text.len() + 3;
        let line = format!("{at}..{} error: invalid digit for this base: 0b2", at + 1);
        check(&["--bad", "--allow", id], &rest, &[&line], 1);
    }
}

#[test]
fn stray_characters() {
    let text = "\u{20ac} 1u9";
    let [stray, suffix] = [
        "0..3 error: stray character: \u{20ac}",
        "4..7 error: unknown suffix: 1u9",
    ];
    let strays = ["--bad", "--no-stray"];
    check(&strays, text, &[stray, suffix], 1);
    check(
        &[&strays[..], &["--allow", "stray-character"]].concat(),
        text,
        &[suffix],
        1,
    );
    check(
        &[&strays[..], &["--allow", "unknown-suffix"]].concat(),
        text,
        &[stray],
        1,
    );
}

#[test]
fn macro_code() {
    let words = ["--bad", "--macros", "all", "--allow", "unknown-suffix"];
    check(
        &words,
        "m!(1u9, 256u8)",
        &["8..13 error: out of its type's range: 256u8"],
        1,
    );
}

/// The error that ends a source always has its line.
#[test]
fn unclosed_quotes() {
    check(
        &["--bad", "--allow", "unknown-suffix"],
        "1u9 \"a",
        &["4..4 error: unclosed quote"],
        1,
    );
}

/// A text with a character of each class, and two of the last class.
const HIDDEN: &str = "a\u{202e}b\u{200b}c\u{ad}\u{200d}d\u{fe0f}\u{1}";
const CHARACTERS: [(&str, &str); 6] = [
    (
        "bidirectional-character",
        "1..4 U+202E RIGHT-TO-LEFT OVERRIDE",
    ),
    ("invisible-character", "5..8 U+200B"),
    ("invisible-character", "9..11 U+00AD"),
    ("joiner", "11..14 U+200D"),
    ("variation-selector", "15..18 U+FE0F"),
    ("control-character", "18..19 U+0001"),
];

#[test]
fn characters_by_class() {
    let lines = CHARACTERS.map(|(_, line)| line);
    check(&["--invisible"], HIDDEN, &lines, 1);
    for (allowed, _) in CHARACTERS {
        let others = CHARACTERS.iter().filter(|(class, _)| *class != allowed);
        let others: Vec<&str> = others.map(|(_, line)| *line).collect();
        check(&["--invisible", "--allow", allowed], HIDDEN, &others, 1);
    }
    let mut words = vec!["--invisible"];
    words.extend(CHARACTERS.iter().flat_map(|(class, _)| ["--allow", *class]));
    check(&words, HIDDEN, &[], 0);
}

#[test]
fn characters_by_number() {
    let lines = CHARACTERS.map(|(_, line)| line);
    for (number, index) in [
        ("U+202E", 0),
        ("U+200B", 1),
        ("U+200b", 1),
        ("U+0200B", 1),
        ("U+00200B", 1),
        ("U+00AD", 2),
        ("U+200D", 3),
        ("U+FE0F", 4),
        ("U+00FE0F", 4),
        ("U+0001", 5),
    ] {
        let mut others = lines.to_vec();
        others.remove(index);
        check(&["--invisible", "--allow", number], HIDDEN, &others, 1);
    }
    // Numbers of other characters.
    for number in ["U+200C", "U+2060", "U+E0100", "U+000D"] {
        check(&["--invisible", "--allow", number], HIDDEN, &lines, 1);
    }
    check(
        &["--invisible", "--allow=U+E0101"],
        "a\u{e0101}b\u{e0100}",
        &["6..10 U+E0100"],
        1,
    );
}

/// Arguments with an error, and the error.
const REJECTED: [(&[&str], &str); 19] = [
    (&["--allow"], "--allow needs a value: the id of a finding, such as unknown-suffix"),
    (
        &["--allow", "joiner"],
        "--allow has no effect without a mode: use --bad or --invisible",
    ),
    (
        &["--only", "Str", "--allow", "joiner"],
        "--allow has no effect with --only: use --bad or --invisible",
    ),
    (
        &["--fix", "--allow", "joiner"],
        "--allow has no effect with --fix: use --bad or --invisible",
    ),
    (
        &["--check", "--allow", "joiner"],
        "--allow has no effect with --check: use --bad or --invisible",
    ),
    (
        &["--bad", "--allow", "joiner"],
        "unknown id 'joiner' of --allow: expected an id that --bad --json prints, such as unknown-suffix",
    ),
    (
        &["--bad", "--allow", "U+200B"],
        "unknown id 'U+200B' of --allow: expected an id that --bad --json prints, such as unknown-suffix",
    ),
    (
        &["--bad", "--allow", "unknown-escape", "--allow", "unkown-suffix"],
        "unknown id 'unkown-suffix' of --allow: did you mean 'unknown-suffix'?",
    ),
    (
        &["--bad", "--allow", "surro"],
        "unknown id 'surro' of --allow: did you mean 'surrogate'?",
    ),
    (
        &["--bad", "--allow", "SURROGATE"],
        "unknown id 'SURROGATE' of --allow: expected an id that --bad --json prints, such as unknown-suffix",
    ),
    (
        &["--bad", "--allow", "nul,surrogate"],
        "unknown id 'nul,surrogate' of --allow: expected an id that --bad --json prints, such as unknown-suffix",
    ),
    (
        &["--bad", "--allow", "a\u{200b}"],
        "unknown id 'a\\u{200b}' of --allow: expected an id that --bad --json prints, such as unknown-suffix",
    ),
    (
        &["--bad", "--allow", "unclosed-quote"],
        "--allow can't leave out unclosed-quote: the rest of the file isn't read",
    ),
    (
        &["--bad", "--allow", "unclosed-comment"],
        "--allow can't leave out unclosed-comment: the rest of the file isn't read",
    ),
    (
        &["--invisible", "--allow", "unclosed-quote"],
        "unknown id 'unclosed-quote' of --allow: expected bidirectional-character, joiner, variation-selector, control-character, invisible-character or U+XXXX",
    ),
    (
        &["--invisible", "--allow", "joinr"],
        "unknown id 'joinr' of --allow: did you mean 'joiner'?",
    ),
    (
        &["--invisible", "--allow", "unknown-suffix"],
        "unknown id 'unknown-suffix' of --allow: expected bidirectional-character, joiner, variation-selector, control-character, invisible-character or U+XXXX",
    ),
    (
        &["--invisible", "--allow", "joiner", "--allow", "U+20"],
        "unknown id 'U+20' of --allow: expected bidirectional-character, joiner, variation-selector, control-character, invisible-character or U+XXXX",
    ),
    // The first unknown identifier counts.
    (
        &["--bad", "--allow", "nule", "--allow", "surrogat"],
        "unknown id 'nule' of --allow: did you mean 'nul'?",
    ),
];

#[test]
fn errors_of_arguments() {
    for (words, error) in REJECTED {
        let (out, status, errors) = run(words, "1u9");
        assert_eq!((out.as_str(), status), ("", 2), "{words:?}");
        assert_eq!(errors.trim_end(), format!("rl_scan: {error}"), "{words:?}");
    }
}

#[test]
fn numbers_of_another_form() {
    for word in [
        "U+",
        "U+200",
        "U+0000200B",
        "U+000200B",
        "u+200B",
        "U+200G",
        "U++200B",
        "U+-200B",
        "U+ 200B",
        "200B",
        "\\u{200b}",
        "0x200B",
        " U+200B",
        "U+200B ",
    ] {
        let (out, status, errors) = run(&["--invisible", "--allow", word], HIDDEN);
        assert_eq!((out.as_str(), status), ("", 2), "{word}");
        assert!(errors.starts_with("rl_scan: unknown id '"), "{word}");
    }
}

#[test]
fn any_value_beside_the_help() {
    let (out, status, errors) = run(&["--help", "--allow", "nothing"], "");
    assert_eq!((status, errors.as_str()), (0, ""));
    assert!(out.starts_with("usage: rl_scan "));
}
