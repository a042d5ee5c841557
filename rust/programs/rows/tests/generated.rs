//! Tests the output of `rl_scan --generate`.

use navyspindle_rows::command::run;
use std::process::Command;

/// The values of `--generate`.
const VALUES: [&str; 6] = ["man", "bash", "zsh", "fish", "sarif-jq", "problem-matcher"];

/// Returns the output for a value of `--generate`.
fn generated(value: &str) -> String {
    let (out, status, errors) = run(&["--generate", value], "");
    assert_eq!((status, errors.as_str()), (0, ""), "{value}");
    out
}

#[test]
fn files_of_the_repository() {
    assert_eq!(generated("sarif-jq"), include_str!("../../texts/sarif.jq"));
    assert_eq!(
        generated("problem-matcher"),
        include_str!("../../texts/problem-matcher.json")
    );
}

/// Each option of `--help` is in the manual page and in the completions.
#[test]
fn each_option() {
    let (help, ..) = run(&["--help"], "");
    let mut count = 0;
    let [man, bash, zsh, fish] = ["man", "bash", "zsh", "fish"].map(generated);
    let (options, _) = help.split_once("\nLines:\n").expect("lines");
    for line in options
        .lines()
        .map(str::trim_start)
        .filter(|line| line.starts_with('-'))
    {
        let name = line.split_once("--").expect("a name").1;
        let name = name.split(' ').next().unwrap_or_default();
        if name.is_empty() {
            continue;
        }
        count += 1;
        let escaped = name.replace('-', "\\-");
        assert!(man.contains(&format!("\\-\\-{escaped}")), "{name}");
        let option = format!("--{name}");
        assert!(bash.split([' ', '"']).any(|word| word == option), "{name}");
        assert!(zsh.contains(&option), "{name}");
        assert!(fish.contains(&format!(" -l {name} ")), "{name}");
    }
    // The rows of the table of options, without `--`.
    assert_eq!(count, 42);
}

#[test]
fn the_manual_page() {
    let page = generated("man");
    let (head, rest) = page.split_once('\n').expect("a first line");
    assert!(head.starts_with(".TH RL_SCAN 1 20"), "{head}");
    assert!(rest.starts_with(".SH NAME\nrl_scan \\- prints the literals of Rust"));
    let check = ".IP \"\\fB\\-\\-check\\fR\"\nPrint the changes that \\-\\-fix would make.";
    assert!(page.contains(&format!("\n{check}\n")));
    assert!(page.contains("\n.SH EXIT STATUS\n.nf\n  0  success\n"));
}

/// Returns the completions that bash has for the last of the words.
fn completed(words: &[&str]) -> Vec<String> {
    let script = format!(
        "{}\nCOMP_WORDS=({})\nCOMP_CWORD={}\n_rl_scan\nprintf '%s\\n' \"${{COMPREPLY[@]}}\"",
        generated("bash"),
        words.join(" "),
        words.len() - 1
    );
    let output = Command::new("bash").args(["-c", &script]).output();
    let output = output.expect("bash runs");
    assert!(output.status.success(), "{output:?}");
    let text = String::from_utf8(output.stdout).expect("text");
    text.lines().map(String::from).collect()
}

#[test]
fn completions_of_bash() {
    assert_eq!(completed(&["rl_scan", "--inv"]), ["--invisible"]);
    assert_eq!(
        completed(&["rl_scan", "--fil"]),
        ["--files-from", "--files", "--files-with-matches"]
    );
    assert_eq!(completed(&["rl_scan", "--color", "a"]), ["auto", "always"]);
    assert_eq!(
        completed(&["rl_scan", "--only", "Str,By"]),
        ["Str,ByteStr", "Str,Byte"]
    );
    assert_eq!(completed(&["rl_scan", "--generate", "\"\""]), VALUES);
}

#[test]
fn the_last_action_counts() {
    let page = (generated("man"), 0, String::new());
    assert_eq!(run(&["--help", "--generate", "man", "--bad"], ""), page);
    assert_eq!(run(&["--generate=man"], ""), page);
    let version = ("rl_scan 0.2.0\n".to_string(), 0, String::new());
    assert_eq!(run(&["--generate", "man", "--version"], ""), version);
}

#[test]
fn errors() {
    for (words, error) in [
        (
            &["--generate"][..],
            "rl_scan: --generate needs a value: man, bash, zsh, fish, sarif-jq or problem-matcher",
        ),
        (
            &["--generate", "Man"],
            "rl_scan: unknown value 'Man' of --generate: expected man, bash, zsh, fish, sarif-jq or problem-matcher",
        ),
        (
            &["--generat"],
            "rl_scan: unknown option '--generat': did you mean '--generate'?",
        ),
    ] {
        let (out, status, errors) = run(words, "");
        assert_eq!((out.as_str(), status), ("", 2), "{words:?}");
        assert_eq!(errors.trim_end(), error);
    }
}
