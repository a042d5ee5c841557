//! Tests `--only` with `--check`, `--diff` and `--fix`: only literals of the listed kinds are rewritten. The expected output is
//! written by hand, and every expected position is counted by hand.

use navyspindle_programs::rattle_std::alloc::Global;
use navyspindle_programs::rattle_std::string::String as Line;
use navyspindle_programs::rattle_std::vec::Vec as List;
use navyspindle_programs::rl_files::{MemoryFile, MemoryReplacements, MemoryTree};
use navyspindle_programs::rl_scan::{run_with_arguments, Console};
use navyspindle_rows::command::run;

/// A source in which the default style changes the first three literals, and with `--macros all` also the last two.
const TEXT: &str = "f(1E5, r#\"a\"#, \"it\\'s\", b'\\'', m!(2E5, \"\\'\"));\n";

const FLOAT: &str = "2..5 1E5 -> 1e5 [exponent_letter]\n";
const RAW: &str = "7..13 r#\"a\"# -> r\"a\" [fewest_hashes]\n";
const STRING: &str = "15..22 \"it\\'s\" -> \"it's\" [drop_quote_escapes]\n";
const MACRO_FLOAT: &str = "34..37 2E5 -> 2e5 [exponent_letter]\n";
const MACRO_STRING: &str = "39..43 \"\\'\" -> \"'\" [drop_quote_escapes]\n";

#[test]
fn changes_of_the_kinds_are_printed() {
    for (words, lines) in [
        (&["--check"][..], vec![FLOAT, RAW, STRING]),
        (&["--check", "--only", "Float"], vec![FLOAT]),
        (&["--only=FLOAT", "--check"], vec![FLOAT]),
        (&["--check", "--only", "Str"], vec![RAW, STRING]),
        (
            &["--check", "--only", "str,float"],
            vec![FLOAT, RAW, STRING],
        ),
        (&["--check", "--only", "Char"], vec![]),
        (
            &["--check", "--only", "Byte,ByteStr,CStr,Int,Bool,Verbatim"],
            vec![],
        ),
        (
            &["--check", "--only", "Float", "--macros", "all"],
            vec![FLOAT, MACRO_FLOAT],
        ),
        (
            &["--check", "--only", "Str", "--macros", "all"],
            vec![RAW, STRING, MACRO_STRING],
        ),
        (
            &["--check", "--only", "Str", "--rule", "fewest_hashes"],
            vec![RAW],
        ),
        (
            &["--check", "--only", "Float", "--rule", "fewest_hashes"],
            vec![],
        ),
    ] {
        let status = u8::from(!lines.is_empty());
        let expected = (lines.concat(), status, String::new());
        assert_eq!(run(words, TEXT), expected, "{words:?}");
    }
}

#[test]
fn diffs_and_rewritten_inputs() {
    let floats = "f(1e5, r#\"a\"#, \"it\\'s\", b'\\'', m!(2E5, \"\\'\"));\n";
    let strings = "f(1E5, r\"a\", \"it's\", b'\\'', m!(2E5, \"\\'\"));\n";
    assert_eq!(
        run(&["--diff", "--only", "float", "a.rs"], TEXT),
        (
            format!("--- a.rs\n+++ a.rs\n@@ -1,1 +1,1 @@\n-{TEXT}+{floats}"),
            1,
            String::new()
        )
    );
    let nothing = (String::new(), 0, String::new());
    assert_eq!(run(&["--diff", "--only", "Char", "a.rs"], TEXT), nothing);
    for (kinds, new) in [("Float", floats), ("Str", strings), ("Char", TEXT)] {
        assert_eq!(
            run(&["--fix", "--only", kinds], TEXT),
            (new.to_string(), 0, String::new())
        );
    }
}

#[test]
fn counts_and_totals() {
    let totals = |files: u8, findings: u8, rules: &str| {
        format!("files: 1\nfiles with findings: {files}\nfindings: {findings}\nfiles with an error: 0\n{rules}")
    };
    for (words, out, status) in [
        (
            &["--check", "--only", "Float", "--stats"][..],
            FLOAT.to_string() + &totals(1, 1, "exponent_letter: 1\n"),
            1,
        ),
        (
            &["--check", "-q", "--only", "Str", "--stats"],
            totals(1, 2, "drop_quote_escapes: 1\nfewest_hashes: 1\n"),
            1,
        ),
        (
            &["--check", "-q", "--only", "Char", "--stats"],
            totals(0, 0, ""),
            0,
        ),
        (
            &["--check", "-c", "--only", "Str", "a.rs"],
            "a.rs:2\n".to_string(),
            1,
        ),
        (
            &["--check", "-l", "--only", "Str", "a.rs"],
            "a.rs\n".to_string(),
            1,
        ),
        (
            &["--check", "-l", "--only", "Char", "a.rs"],
            String::new(),
            0,
        ),
        (
            &["--fix", "--only", "Str", "a.rs"],
            "a.rs:2\n".to_string(),
            0,
        ),
        (&["--fix", "--only", "Char", "a.rs"], String::new(), 0),
    ] {
        assert_eq!(run(words, TEXT), (out, status, String::new()), "{words:?}");
    }
}

#[test]
fn objects_and_annotations() {
    assert_eq!(
        run(&["--check", "--json", "--only", "Float"], TEXT).0,
        "{\"lo\":2,\"hi\":5,\"line\":1,\"column\":3,\"end_line\":1,\"end_column\":6,\"byte_column\":3,\
        \"end_byte_column\":6,\"text\":\"1E5\",\"new\":\"1e5\",\"rules\":[\"exponent_letter\"]}\n"
    );
    assert_eq!(
        run(&["--check", "--format", "github", "--only", "Float"], TEXT).0,
        "::error line=1,endLine=1,col=3,endColumn=6,title=style::1E5 -> 1e5 [exponent_letter]\n"
    );
}

/// Returns the output of `rl_scan` for the files `a.rs` with `TEXT` and `b.rs` with a float, and the names and the new contents of
/// the replaced files.
fn replaced(words: &[&str]) -> (String, Vec<(String, String)>) {
    let words: Vec<Line> = ["rl_scan"]
        .iter()
        .chain(words)
        .chain(&["a.rs", "b.rs"])
        .map(|word| Line::from_str(Global, word).expect("memory"))
        .collect();
    let files = [("a.rs", TEXT), ("b.rs", "1E5")].map(|(path, text)| MemoryFile {
        path,
        bytes: Ok(text.as_bytes()),
    });
    let tree = MemoryTree {
        files: &files,
        directories: &[],
    };
    let mut kept = MemoryReplacements {
        alloc: Global,
        unwritable: &[],
        handed: List::new(Global),
    };
    let (mut out, mut errors) = (List::new(Global), List::new(Global));
    run_with_arguments(
        Global,
        &words,
        Console {
            lacks_input: false,
            has_colors: false,
            out: &mut out,
            err: &mut errors,
        },
        &tree,
        &mut kept,
    );
    assert_eq!(errors.as_slice(), b"");
    let text = |bytes: &[u8]| String::from_utf8(bytes.to_vec()).expect("it is UTF-8");
    let handed = kept.handed.iter();
    let new = handed.map(|file| (file.path.as_str().to_string(), text(file.new.as_slice())));
    (text(out.as_slice()), new.collect())
}

#[test]
fn files_without_changes_of_the_kinds_stay() {
    let strings = "f(1E5, r\"a\", \"it's\", b'\\'', m!(2E5, \"\\'\"));\n";
    assert_eq!(
        replaced(&["--fix", "--only", "Str"]),
        (
            "a.rs:2\n".to_string(),
            vec![("a.rs".to_string(), strings.to_string())]
        )
    );
    assert_eq!(
        replaced(&["--fix", "--only", "Int,Char"]),
        (String::new(), vec![])
    );
    let (out, new) = replaced(&["--fix", "--only", "Float"]);
    assert_eq!(out, "a.rs:1\nb.rs:1\n");
    assert_eq!(new[1], ("b.rs".to_string(), "1e5".to_string()));
    assert_eq!(new.len(), 2);
}

/// The kinds of literals as `--only` names them.
const KINDS: [&str; 9] = [
    "Str", "ByteStr", "CStr", "Byte", "Char", "Int", "Float", "Bool", "Verbatim",
];

/// Literals that the rules `drop_underscores`, `exponent_letter` and `fewest_hashes` or the rule `drop_quote_escapes` change, and
/// their kinds. `1_0f32` is an integer with a suffix by `syn`'s grammar. An integer above 128 bits is `Verbatim`.
const LITERALS: [(&str, &str); 18] = [
    ("\"\\'\"", "Str"),
    ("r#\"a\"#", "Str"),
    ("\"\\'\"s", "Str"),
    ("b\"\\'\"", "ByteStr"),
    ("br#\"a\"#", "ByteStr"),
    ("c\"\\'\"", "CStr"),
    ("cr#\"a\"#", "CStr"),
    ("b'\\\"'", "Byte"),
    ("'\\\"'", "Char"),
    ("1_0", "Int"),
    ("0xE_5", "Int"),
    ("1_0u8", "Int"),
    ("1_0f32", "Int"),
    ("1_0.5", "Float"),
    ("1E5", "Float"),
    ("1E5f64", "Float"),
    ("3_40282366920938463463374607431768211456", "Verbatim"),
    ("3_40282366920938463463374607431768211456f64", "Verbatim"),
];

/// A literal is rewritten with `--only KIND` if `--only KIND` without another mode prints it.
#[test]
fn kinds_are_those_of_printed_literals() {
    for (text, own) in LITERALS {
        for kind in KINDS {
            let printed = run(&["--only", kind], text).0;
            assert_eq!(!printed.is_empty(), kind == own, "{text} {kind}");
            let words = [
                "--check",
                "--rule=drop_underscores",
                "--rule=exponent_letter=lower",
                "--rule=fewest_hashes",
                "--rule=drop_quote_escapes",
                "--only",
                kind,
            ];
            let changes = run(&words, text).0;
            assert_eq!(!changes.is_empty(), kind == own, "{text} {kind}");
        }
    }
}

/// A minus isn't part of a literal. `true` has the kind `Bool`, and no rule changes it.
#[test]
fn minus_and_bool() {
    assert_eq!(
        run(&["--check", "--only", "Float"], "-1E5 true").0,
        "1..4 1E5 -> 1e5 [exponent_letter]\n"
    );
    assert_eq!(run(&["--check", "--only", "Bool"], "-1E5 true").1, 0);
}

/// A source with an error isn't rewritten, also if the error is in a literal of another kind.
#[test]
fn errors_of_other_kinds_are_reported() {
    let (out, status, errors) = run(&["--check", "--only", "Float"], "1E5 \"\\q\"");
    assert_eq!((out.as_str(), status), ("", 2));
    assert!(errors.starts_with("6..7 error: unknown escape"), "{errors}");
}

#[test]
fn other_combinations_are_errors() {
    for words in [
        &["--check", "--only", "x"][..],
        &["--check", "--only", "Str,"],
        &["--check", "--only", "Str", "--only", "Str"],
        &["--only", "Str", "--bad"],
        &["--only", "Str", "--check", "--fix"],
        &["--only", "Str", "--diff", "--find", "a"],
        &["--only", "Str", "--check", "--files"],
    ] {
        let (out, status, errors) = run(words, TEXT);
        assert_eq!((out.as_str(), status), ("", 2), "{words:?}");
        assert!(!errors.is_empty(), "{words:?}");
    }
}
