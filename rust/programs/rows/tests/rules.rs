//! Tests the output of `rl_scan --rules`: each rule has an example, and `--rule` accepts each listed value. `--check` prints the
//! examples, and names the rules that change a literal.

use navyspindle_rows::command::run;

/// A rule of the output of `--rules`.
struct Entry {
    name: &'static str,
    values: Vec<&'static str>,
    example: &'static str,
}

fn entries() -> Vec<Entry> {
    let page = run(&["--rules"], "").0.leak();
    let blocks = page.trim_end().split("\n\n").skip(1);
    blocks
        .map(|block| {
            let (head, rest) = block.split_once('\n').expect("a description");
            let (name, values) = head.split_once(" = ").expect("values");
            let (_, example) = rest.rsplit_once("\n    ").expect("an example");
            Entry {
                name,
                values: values.split(" or ").collect(),
                example,
            }
        })
        .collect()
}

#[test]
fn examples_are_changes() {
    for Entry { name, example, .. } in entries() {
        let (settings, change) = example.split_once(": ").expect("a change");
        let (old, _) = change.split_once(" -> ").expect("a new text");
        assert!(settings.starts_with(&format!("{name} = ")), "{example}");
        let mut words = vec!["--check"];
        for setting in settings.split(", ") {
            words.extend(["--rule", setting]);
        }
        let text = old.replace("<U+200B>", "\u{200b}");
        // `min_digits` is a part of the rules for digit groups.
        let rule = match name {
            "min_digits" => "decimal_groups",
            _ => name,
        };
        let line = format!("0..{} {change} [{rule}]\n", text.len());
        let expected = (line, 1, String::new());
        assert_eq!(run(&words, &text), expected, "{example}");
        // A rule that isn't set is off.
        assert_eq!(
            run(&["--check", "--rule", "drop_raw=false"], &text).1,
            0,
            "{example}"
        );
    }
}

#[test]
fn values_are_accepted() {
    let mut count = 0;
    for Entry { name, values, .. } in entries() {
        for value in values {
            let value = if value == "NUM" { "3" } else { value };
            for value in [value, value.trim_matches('"')] {
                let setting = format!("{name}={value}");
                let mut words = vec!["--check", "--rule", &setting];
                if name == "min_digits" {
                    words.push("--rule=decimal_groups=3");
                }
                assert_eq!(run(&words, "1").1, 0, "{setting}");
            }
            count += 1;
        }
        // NAME alone means NAME=true, which only some rules accept.
        let alone = run(&["--check", "--rule", name], "1").1;
        assert_eq!(
            alone,
            run(&["--check", "--rule", &format!("{name}=true")], "1").1,
            "{name}"
        );
    }
    assert_eq!(count, 35);
}

#[test]
fn a_value_is_a_single_rule() {
    let (out, status, error) = run(&["--check", "--rule", "float_zero=true\ndrop_raw"], "1.");
    assert_eq!((out.as_str(), status), ("", 2));
    assert_eq!(
        error,
        "rl_scan: the value 'float_zero=true\\ndrop_raw' of --rule is more than one rule: pass --rule for each"
    );
}

/// Literals that many rules change, alone and together.
const LITERALS: &str = r###"0xFF_u8 0x_aB_cD 0b1_1 0b11111_1u8 0o7_7 0o77777_i64
    089 0_1 00_8 1_000 1__000_ 1000u8 1_000_000_u64 01_000_9u8 0009_f32 1_0_b1 10__
    1. 1_000. 1_000.000_1 1E5 1_0E+5 1e+5_0 1.0E-5f32 1000000E+1 2_32 0123
    "it\'s" "\x41\x0a" "\u{00_E9}\u{0A}" "\x001" "\x00\x31" "\x22\x5c" "\u{000041}\'" b"\xE9\'" c"\xfF\u{00e9}"
    '\x27' '\"' '\u{0027}' b'\x0A' b'\"' r"a" r##"b"## r#"a"b"# br##"\"## cr#"c"# r"<U+200B>" r##"<U+202E>a"## "<U+200B>\x41\'"
"###;

#[test]
fn each_change_has_a_rule() {
    let text = LITERALS
        .replace("<U+200B>", "\u{200b}")
        .replace("<U+202E>", "\u{202e}");
    let mut settings = Vec::new();
    for Entry { name, values, .. } in entries() {
        for value in values {
            settings.push(match value {
                "NUM" => format!("{name}=3"),
                _ => format!("{name}={value}"),
            });
        }
    }
    let mut changes = 0;
    for first in &settings {
        for second in &settings {
            // A rule is set once.
            if first.split('=').next() >= second.split('=').next() {
                continue;
            }
            let out = run(&["--check", "--rule", first, "--rule", second], &text).0;
            for line in out.lines() {
                assert!(
                    line.ends_with(']') && !line.ends_with("[]"),
                    "{first} {second}: {line}"
                );
                changes += 1;
            }
        }
    }
    assert!(changes > 1000, "{changes}");
}

#[test]
fn a_rule_is_named_if_it_alone_changes_the_literal() {
    let check = |settings: &[&str], text: &str| {
        let mut words = vec!["--check"];
        for setting in settings {
            words.extend(["--rule", setting]);
        }
        run(&words, text).0
    };
    assert_eq!(
        check(
            &[
                "drop_underscores",
                "decimal_groups=3",
                "exponent_letter=lower"
            ],
            "1_000E5"
        ),
        "0..7 1_000E5 -> 1_000e5 [drop_underscores, exponent_letter]\n"
    );
    assert_eq!(
        check(&["drop_underscores", "decimal_groups=3"], "1_000"),
        ""
    );
    assert_eq!(
        check(
            &[
                "decimal_groups=3",
                "hexadecimal_groups=4",
                "binary_groups=4"
            ],
            "0x12345 1234"
        ),
        "0..7 0x12345 -> 0x1_2345 [hexadecimal_groups]\n8..12 1234 -> 1_234 [decimal_groups]\n"
    );
    assert_eq!(
        check(
            &["named_escapes", "escape_digits=lower", "drop_ascii_escapes"],
            "\"\\x0A\\x4A\""
        ),
        "0..10 \"\\x0A\\x4A\" -> \"\\nJ\" [escape_digits, drop_ascii_escapes, named_escapes]\n"
    );
}

/// The totals are no part of the rewritten source.
#[test]
fn totals_of_a_rewritten_input_are_on_standard_error() {
    assert_eq!(
        run(&["--fix", "--stats"], "f(1E5, \"it\\'s\", 2E5)\n"),
        (
            "f(1e5, \"it's\", 2e5)\n".to_string(),
            0,
            "files: 1\nfiles with findings: 1\nfindings: 3\nfiles with an error: 0\n\
            exponent_letter: 2\ndrop_quote_escapes: 1\n"
                .to_string()
        )
    );
    assert_eq!(run(&["--fix", "--stats"], "1\n").0, "1\n");
}
