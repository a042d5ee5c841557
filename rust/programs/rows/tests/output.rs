//! Tests the forms of the output: GitHub annotations, the source line below a message, and the SARIF document that `sarif.jq`
//! creates from JSON objects. Every expected position is counted by hand.

use navyspindle_rows::command::run;
use std::io::Write;
use std::process::{Command, Stdio};

/// Returns the output for a source, which has no error besides the findings.
fn printed(words: &[&str], text: &str) -> String {
    let (out, _, errors) = run(words, text);
    assert_eq!(errors, "", "{text}");
    out
}

/// Returns the output of `--bad` for a source, with more arguments.
fn bad(words: &[&str], text: &str) -> String {
    printed(&[&["--bad"], words].concat(), text)
}

/// Characters with a special meaning in GitHub's messages and properties are encoded as numbers, such as `%25`.
#[test]
fn annotations_of_what_is_bad() {
    let text = "\tlet b = b\"\\%\"; 1u9\n  \"\u{e9}\\\u{e9}\" /* x";
    assert_eq!(
        bad(&["--format=github", "a,b:c%.rs"], text),
        "::error file=a%2Cb%3Ac%25.rs,line=1,endLine=1,col=13,endColumn=14,title=unknown-escape::unknown escape: \\%25\n\
         ::error file=a%2Cb%3Ac%25.rs,line=1,endLine=1,col=17,endColumn=20,title=unknown-suffix::unknown suffix: 1u9\n\
         ::error file=a%2Cb%3Ac%25.rs,line=2,endLine=2,col=6,endColumn=7,title=unknown-escape::unknown escape: \\\u{e9}\n\
         ::error file=a%2Cb%3Ac%25.rs,line=2,endLine=2,col=9,endColumn=9,title=unclosed-comment::unclosed block comment\n"
    );
}

/// A literal is a notice, which covers its first to its last line.
#[test]
fn annotations_of_literals() {
    let github = ["--format", "github"];
    assert_eq!(
        printed(&github, "\u{feff}f(\"100%\")\n\"a\nb\" '\\q'"),
        "::notice line=1,endLine=1,col=3,endColumn=9,title=literal::Str \"100%25\" -\n\
         ::notice line=2,endLine=3,col=1,endColumn=3,title=literal::Str \"a\\nb\" -\n\
         ::notice line=3,endLine=3,col=4,endColumn=8,title=literal::Verbatim \"'\\\\q'\" -\n"
    );
    assert_eq!(
        printed(&["--text", "--format=github"], "\"100%\r\nb\""),
        "::notice line=1,endLine=2,col=1,endColumn=3,title=literal::\"100%25\\r\\nb\"\n"
    );
}

/// The JSON object of a flaw doesn't contain the text of its literal if the text has more than 1,024 bytes. So a literal with many
/// flaws isn't printed many times.
#[test]
fn objects_of_flaws_in_long_literals() {
    for (bytes, is_shown) in [(1024, true), (1025, false)] {
        // The literal contains a character of two bytes, so the test distinguishes bytes from characters.
        let literal = format!("\"\u{e9}{}\\q\"", "a".repeat(bytes - 6));
        assert_eq!(literal.len(), bytes);
        let shown = bad(&["--json"], &literal);
        let text = if is_shown {
            format!("\"{}\"", literal.replace('\\', "\\\\").replace('"', "\\\""))
        } else {
            "null".to_string()
        };
        assert!(
            shown.contains(&format!("\"text\":{text},\"id\":\"unknown-escape\"")),
            "{shown}"
        );
        assert!(shown.contains("\"piece\":\"\\\\q\""), "{shown}");
    }
}

#[test]
fn annotations_of_what_hides_text() {
    assert_eq!(
        printed(&["--invisible", "--format=github"], "a\u{202e}\n\u{200b}"),
        "::error line=1,endLine=1,col=2,endColumn=3,title=bidirectional-character::U+202E RIGHT-TO-LEFT OVERRIDE\n\
         ::error line=2,endLine=2,col=1,endColumn=2,title=invisible-character::U+200B\n"
    );
}

/// Tests the source line and the carets below it. A tab before the position is a tab below it too. A character that is printed as
/// an escape has a caret for each character of the escape.
#[test]
fn context_of_what_is_bad() {
    assert_eq!(
        bad(
            &["-C0", "a.rs"],
            "\u{feff}\tlet b = b\"\\%\"; //\u{202e}\r\n \u{e9}\u{e9} 1u9\n\t/* \u{e9}\n*"
        ),
        "a.rs:1:13: error: unknown escape: \\%\n\
         \x20   \tlet b = b\"\\%\"; //\\u{202e}\n\
         \x20   \t           ^\n\
         a.rs:2:5: error: unknown suffix: 1u9\n\
         \x20    \u{e9}\u{e9} 1u9\n\
         \x20       ^^^\n\
         a.rs:3:2: error: unclosed block comment\n\
         \x20   \t/* \u{e9}\n\
         \x20   \t^\n"
    );
}

/// Carets are below the columns below which rustc 1.95 has them, in each of these lines. The carets are rustc's, below its own copy
/// of the line. A wide character has two carets or spaces, and a combining mark none. If a mark is alone, it has one caret.
#[test]
fn carets_below_wide_characters() {
    for (line, carets) in [
        ("let a = \"\u{4f60}\u{597d}\\q\";", "              ^"),
        ("let b = \"e\u{301}\\q\";", "           ^"),
        ("let c = \"\u{1100}\u{1161}\u{11a8}\\q\";", "            ^"),
        ("let d = \"\u{ff8a}\u{ff9d}\u{ff9e}\\q\";", "            ^"),
        ("let e = \"\u{ff21}\u{ff22}\\q\";", "              ^"),
        ("let f = \"\u{263a}\u{fe0f}\\q\";", "           ^"),
        ("let g = \"\u{1f469}\u{1f3fd}\\q\";", "              ^"),
        ("let h = \"\u{1780}\u{17d8}\\q\";", "              ^"),
        ("let i = \"\u{2026}\u{3b1}\u{2460}\\q\";", "             ^"),
        ("let j = \"\\\u{4f60}\u{597d}\";", "          ^^"),
        ("let k = b\"\\\u{301}\";", "           ^"),
        ("/* \u{4f60} */ 1u9", "         ^^^"),
    ] {
        let shown = bad(&["-C0", "--lines"], line);
        let below = format!("\n    {line}\n    {carets}\n");
        assert!(shown.ends_with(&below), "{line}: {shown}");
        assert_eq!(shown.lines().count(), 3);
    }
}

/// In a character or byte literal, the suffix `_` is an error in addition to another flaw. These are the seven errors of rustc
/// 1.95, each at the byte that can't continue a literal. `'ab'` has no suffix.
#[test]
fn two_flaws_of_a_character() {
    assert_eq!(
        bad(&["a.rs"], "skip! { '\r\n'_ '\\q'_ b''_ 'ab'_ }\r\n"),
        "a.rs:1:10: error: must be written as an escape: \\r\\n\n\
         a.rs:2:3: error: `_` isn't a suffix: '\\r\\n'_\n\
         a.rs:2:6: error: unknown escape: \\q\n\
         a.rs:2:9: error: `_` isn't a suffix: '\\q'_\n\
         a.rs:2:12: error: no character between the quotes: b''_\n\
         a.rs:2:14: error: `_` isn't a suffix: b''_\n\
         a.rs:2:17: error: more than one character between the quotes: 'ab'\n"
    );
}

/// If a range covers several lines, the first line is shown, with carets up to its end.
#[test]
fn context_of_literals() {
    assert_eq!(
        printed(&["-A0"], "\u{e9} \"x\u{202e}\ny\" 2"),
        "3..11 Str \"x\\u{202e}\\ny\" -\n\
         \x20   \u{e9} \"x\\u{202e}\n\
         \x20     ^^^^^^^^^^\n\
         12..13 Int 2 -\n\
         \x20   y\" 2\n\
         \x20      ^\n"
    );
    assert_eq!(
        printed(&["-C0", "--invisible"], "a\n\tb\u{200b}c"),
        "4..7 U+200B\n\
         \x20   \tb\\u{200b}c\n\
         \x20   \t ^^^^^^^^\n"
    );
    assert_eq!(
        printed(&["-C0", "-eb"], "\"a\nb\""),
        "3..4 Str \"a\\nb\" -\n\
         \x20   b\"\n\
         \x20   ^\n"
    );
}

/// A line of more than 1,024 bytes isn't shown, also if it is before or after the line of the position. If the position's own line
/// is too long, nothing is shown. The line end isn't counted.
#[test]
fn context_of_long_lines() {
    let words = ["-C1", "a.rs"];
    let blank = " ".repeat(1019);
    let whole = format!("\u{e9}{blank}1u9");
    assert_eq!(whole.len(), 1024);
    let left_out = "    (a line of more than 1024 bytes)";
    assert_eq!(
        bad(&words, &format!("{whole}\r\n{whole} \n1u9\n ")),
        format!(
            "a.rs:1:1021: error: unknown suffix: 1u9\n    {whole}\n     {blank}^^^\n\
             a.rs:2:1021: error: unknown suffix: 1u9\n{left_out}\n\
             a.rs:3:1: error: unknown suffix: 1u9\n    1u9\n    ^^^\n     \n"
        )
    );
    let front = "x".repeat(1025);
    assert_eq!(
        bad(&words, &format!("{front}\"")),
        format!("a.rs:1:1026: error: unclosed quote\n{left_out}\n")
    );
}

/// JSON objects and annotations have no source lines.
#[test]
fn context_of_words_alone() {
    for form in ["--format=json", "--format=github"] {
        let lines = bad(&[form, "-C0", "a.rs"], "1u9 \"\\q\"");
        assert_eq!(lines, bad(&[form, "a.rs"], "1u9 \"\\q\""));
        assert_eq!(lines.lines().count(), 2);
    }
}

/// Converts all JSON objects to one SARIF document, if the program `jq` is installed.
#[test]
fn sarif() {
    let script = concat!(env!("CARGO_MANIFEST_DIR"), "/../texts/sarif.jq");
    let made = Command::new("jq")
        .args(["-s", "-c", "-f", script])
        .stdin(Stdio::piped())
        .stdout(Stdio::piped())
        .spawn();
    let Ok(mut jq) = made else {
        eprintln!("not tried: jq is not on the path");
        return;
    };
    let mut lines = bad(&["--json", "./a b/\u{e9}#.rs"], "\"\\q\u{e9}\n\" 1u9");
    lines += &printed(&["--json", "--invisible"], "\u{202e}");
    jq.stdin
        .take()
        .expect("it is piped")
        .write_all(lines.as_bytes())
        .expect("jq reads all");
    let end = jq.wait_with_output().expect("jq ends");
    assert!(end.status.success());
    let result = |id: &str, text: &str, uri: &str, region: [u32; 4]| {
        let [line, column, end_line, end_column] = region;
        format!(
            "{{\"ruleId\":\"{id}\",\"level\":\"error\",\"message\":{{\"text\":\"{text}\"}},\"locations\":[{{\"physicalLocation\":\
             {{\"artifactLocation\":{{\"uri\":\"{uri}\"}},\"region\":{{\"startLine\":{line},\"startColumn\":{column},\
             \"endLine\":{end_line},\"endColumn\":{end_column}}}}}}}]}}"
        )
    };
    let rule = |id: &str, text: &str| {
        format!("{{\"id\":\"{id}\",\"shortDescription\":{{\"text\":\"{text}\"}}}}")
    };
    let expected = format!(
        "{{\"version\":\"2.1.0\",\"$schema\":\"https://json.schemastore.org/sarif-2.1.0.json\",\"runs\":[{{\"tool\":{{\"driver\":\
         {{\"name\":\"rl_scan\",\"rules\":[{},{},{}]}}}},\
         \"columnKind\":\"unicodeCodePoints\",\"results\":[{},{},{}]}}]}}\n",
        rule("bidirectional-character", "bidirectional character"),
        rule("unknown-escape", "unknown escape"),
        rule("unknown-suffix", "unknown suffix"),
        result(
            "unknown-escape",
            "unknown escape: \\\\q",
            "a%20b/%C3%A9%23.rs",
            [1, 3, 1, 4]
        ),
        result(
            "unknown-suffix",
            "unknown suffix: 1u9",
            "a%20b/%C3%A9%23.rs",
            [2, 3, 2, 6]
        ),
        result(
            "bidirectional-character",
            "U+202E RIGHT-TO-LEFT OVERRIDE",
            "-",
            [1, 1, 1, 2]
        ),
    );
    assert_eq!(
        String::from_utf8(end.stdout).expect("a document is UTF-8"),
        expected
    );
}
