//! Tests the output for a source whose literals would be rewritten: changes as text, JSON objects and annotations, and unified
//! diffs. The expected output is written by hand.

use navyspindle_rows::command::run;

/// Returns the unified diff for the file at the path.
fn diff(path: &str, text: &str) -> String {
    let (out, status, errors) = run(&["--diff", path], text);
    assert_eq!((status, errors), (u8::from(!out.is_empty()), String::new()));
    out
}

/// Returns the hunks of a diff, after checking its header.
fn hunks(text: &str) -> String {
    let all = diff("a.rs", text);
    let hunks = all.strip_prefix("--- a.rs\n+++ a.rs\n");
    hunks.expect("a head").to_string()
}

/// Returns the changes of a source, which has no errors.
fn changes(words: &[&str], text: &str) -> String {
    let (out, status, errors) = run(&[&["--check"], words].concat(), text);
    assert_eq!((status, errors), (u8::from(!out.is_empty()), String::new()));
    out
}

#[test]
fn equal_texts_have_no_diff() {
    for text in ["", "a\n1e5\n", "a\n1e5"] {
        assert_eq!(diff("a.rs", text), "");
    }
}

#[test]
fn runs_of_lines_that_differ() {
    assert_eq!(hunks("1E5\n"), "@@ -1,1 +1,1 @@\n-1E5\n+1e5\n");
    assert_eq!(
        hunks("a\n1E5\n2E5\nd\n"),
        "@@ -2,2 +2,2 @@\n-1E5\n-2E5\n+1e5\n+2e5\n"
    );
    assert_eq!(
        hunks("1E5\nb\nc\n2E5\ne\n"),
        "@@ -1,1 +1,1 @@\n-1E5\n+1e5\n@@ -4,1 +4,1 @@\n-2E5\n+2e5\n"
    );
    assert_eq!(
        hunks("\n\u{e9} 1E5\r\n\n"),
        "@@ -2,1 +2,1 @@\n-\u{e9} 1E5\r\n+\u{e9} 1e5\r\n"
    );
    let numbered = (1..12).map(|n| format!("{n}\n")).collect::<String>() + "1E5\n";
    assert_eq!(hunks(&numbered), "@@ -12,1 +12,1 @@\n-1E5\n+1e5\n");
}

#[test]
fn last_lines_without_an_end() {
    assert_eq!(
        hunks("a\n1E5"),
        "@@ -2,1 +2,1 @@\n-1E5\n\\ No newline at end of file\n+1e5\n\\ No newline at end of file\n"
    );
    assert_eq!(hunks("1E5\nb"), "@@ -1,1 +1,1 @@\n-1E5\n+1e5\n");
}

#[test]
fn paths_as_they_are_printed() {
    assert_eq!(
        diff("a b.rs", "1E5\n"),
        "--- a b.rs\t\n+++ a b.rs\t\n@@ -1,1 +1,1 @@\n-1E5\n+1e5\n"
    );
    assert_eq!(
        diff("\u{202e}\n", "1E5\n"),
        "--- \\u{202e}\\n\n+++ \\u{202e}\\n\n@@ -1,1 +1,1 @@\n-1E5\n+1e5\n"
    );
}

#[test]
fn lines_of_changes() {
    assert_eq!(
        changes(&["--rule=hex_digits=lower", "a.rs"], "\n\nlet a=0xFF;"),
        "a.rs:3:7: 0xFF -> 0xff [hex_digits]\n"
    );
    let rules = [
        "--rule=drop_quote_escapes",
        "--rule=named_escapes",
        "--rule=drop_ascii_escapes",
    ];
    assert_eq!(
        changes(&rules, "  \"\\'\n\\x0a\\x41\u{202e}\""),
        "2..18 \"\\'\\n\\x0a\\x41<U+202E>\" -> \"'\\n\\nA<U+202E>\" [drop_ascii_escapes, named_escapes, drop_quote_escapes]\n"
    );
    assert_eq!(
        changes(&["--color=always", "a.rs"], "1E5"),
        "\x1b[35ma.rs\x1b[0m:\x1b[32m1:1\x1b[0m: 1E5 -> 1e5 [exponent_letter]\n"
    );
}

#[test]
fn changes_as_objects_and_annotations() {
    let rules = ["--rule=drop_quote_escapes", "--rule=escape_invisible"];
    let text = "\n\n     \u{e9} \"\\'\u{200b}50%\n\";";
    assert_eq!(
        changes(&[&rules[..], &["--json", "a:\u{202e}.rs"]].concat(), text),
        "{\"path\":\"a:\\u202e.rs\",\"lo\":10,\"hi\":21,\"line\":3,\"column\":8,\"end_line\":4,\"end_column\":2,\
        \"byte_column\":9,\"end_byte_column\":2,\"text\":\"\\\"\\\\'\\u200b50%\\n\\\"\",\
        \"new\":\"\\\"'\\\\u{200b}50%\\n\\\"\",\"rules\":[\"drop_quote_escapes\",\"escape_invisible\"]}\n"
    );
    let github = [&rules[..], &["--format=github"]].concat();
    let annotation = ",line=3,endLine=4,col=8,endColumn=2,title=style::\
        \"\\'<U+200B>50%25\\n\" -> \"'\\u{200b}50%25\\n\" [drop_quote_escapes, escape_invisible]\n";
    assert_eq!(
        changes(&[&github[..], &["./a:.rs"]].concat(), text),
        format!("::error file=a%3A.rs{annotation}")
    );
    let of_input = format!("::error {}", &annotation[1..]);
    assert_eq!(changes(&github, text), of_input);
}

/// A source with two literals that the default style rewrites. The second one contains a line end.
const TEXT: &str = "let é = 1E5;\nf(\"it\\'s\nä\", 2);\n";

#[test]
fn changes_of_a_source_as_objects() {
    assert_eq!(
        changes(&["--json", "\u{200b}.rs"], TEXT),
        "{\"path\":\"\\u200b.rs\",\"lo\":9,\"hi\":12,\"line\":1,\"column\":9,\"end_line\":1,\"end_column\":12,\
        \"byte_column\":10,\"end_byte_column\":13,\"text\":\"1E5\",\"new\":\"1e5\",\
        \"rules\":[\"exponent_letter\"]}\n\
        {\"path\":\"\\u200b.rs\",\"lo\":16,\"hi\":26,\"line\":2,\"column\":3,\"end_line\":3,\"end_column\":3,\
        \"byte_column\":3,\"end_byte_column\":4,\"text\":\"\\\"it\\\\'s\\nä\\\"\",\"new\":\"\\\"it's\\nä\\\"\",\
        \"rules\":[\"drop_quote_escapes\"]}\n"
    );
    assert_eq!(
        changes(&["--json"], "1E5"),
        "{\"lo\":0,\"hi\":3,\"line\":1,\"column\":1,\"end_line\":1,\"end_column\":4,\"byte_column\":1,\
        \"end_byte_column\":4,\"text\":\"1E5\",\"new\":\"1e5\",\"rules\":[\"exponent_letter\"]}\n"
    );
    assert_eq!(changes(&["--json", "a.rs"], "1e5"), "");
}

#[test]
fn changes_of_a_source_as_annotations() {
    assert_eq!(
        changes(&["--format=github", "./\u{200b}.rs"], TEXT),
        "::error file=\\u{200b}.rs,line=1,endLine=1,col=9,endColumn=12,title=style::1E5 -> 1e5 [exponent_letter]\n\
        ::error file=\\u{200b}.rs,line=2,endLine=3,col=3,endColumn=3,title=style::\"it\\'s\\nä\" -> \"it's\\nä\" \
        [drop_quote_escapes]\n"
    );
}

/// A source line is printed once, also if two findings have it in their context.
#[test]
fn changes_of_a_source_with_context() {
    let first = "a.rs:1:9: 1E5 -> 1e5 [exponent_letter]\n    let é = 1E5;\n            ^^^\n";
    let second = "a.rs:2:3: \"it\\'s\\nä\" -> \"it's\\nä\" [drop_quote_escapes]\n    f(\"it\\'s\n      ^^^^^^\n    ä\", 2);\n";
    assert_eq!(changes(&["-C1", "a.rs"], TEXT), first.to_string() + second);
    assert_eq!(
        changes(&["-B0"], "é 1E5\n"),
        "3..6 1E5 -> 1e5 [exponent_letter]\n    é 1E5\n      ^^^\n"
    );
    assert_eq!(changes(&["-C1", "-c", "a.rs"], TEXT), "a.rs:2\n");
}
