// Rendered from crates/rl_scan/src/options.rt by tools/render, which erases contracts: change that file, and render again.
//! The table of all options.

use crate::rl_scan::modes::{
    ALL, BAD, BAD_OR_INVISIBLE, BAD_OR_REWRITING, FIND, LISTING, LITERALS, Modes, NUMBER, READING,
    REWRITING, TOKENS,
};

#[derive(Clone, Copy)]
pub(crate) enum Value {
    None,
    Word(&'static str),
    Kinds(&'static str),
    Number(&'static str),
    Integer(&'static str),
    Extension(&'static str),
    Pattern(&'static str),
    Id(&'static str),
    Rule(&'static str),
    Text(&'static str),
}

#[derive(Clone, Copy)]
pub(crate) struct OptionRow {
    pub name: &'static str,
    pub letter: char,
    pub modes: Modes,
    pub value: Value,
    pub help: &'static str,
}

#[rustfmt::skip]
pub(crate) const OPTIONS: [OptionRow; 43] = [
    OptionRow { name: "--bad", letter: '\0', modes: READING, value: Value::None, help: "

Modes: one at most, except --only with --find, --fix, --check or --diff
      --bad            print the literals that Rust rejects, and unclosed quotes
                       and comments" },
    OptionRow { name: "--invisible", letter: '\0', modes: READING, value: Value::None, help: "
      --invisible      print invisible and bidirectional characters, anywhere in
                       a file" },
    OptionRow { name: "--only", letter: '\0', modes: ALL, value: Value::Kinds("Str, ByteStr, CStr, Byte, Char, Int, Float, Bool or Verbatim"), help: "
      --only KIND,..   print the literals of these kinds: Str ByteStr CStr Byte
                       Char Int Float Bool Verbatim, in any case" },
    OptionRow { name: "--find", letter: 'e', modes: READING, value: Value::Text("a text, such as TODO"), help: "
  -e, --find TEXT      print the string, character and byte literals whose value
                       contains TEXT; may be repeated" },
    OptionRow { name: "--number", letter: '\0', modes: NUMBER, value: Value::Integer("an integer, such as 31 or 0x1F"), help: "
      --number N       print the integers that represent the number N, written
                       in any base; may be repeated, also with --find" },
    OptionRow { name: "--fix", letter: '\0', modes: ALL, value: Value::None, help: "
      --fix            rewrite files in a style, and print how many literals of
                       each file changed; for standard input, print the
                       rewritten source" },
    OptionRow { name: "--check", letter: '\0', modes: ALL, value: Value::None, help: "
      --check          print the changes that --fix would make" },
    OptionRow { name: "--diff", letter: '\0', modes: ALL, value: Value::None, help: "
      --diff           print these changes as a unified diff" },
    OptionRow { name: "--any-suffix", letter: '\0', modes: BAD, value: Value::None, help: "

Options of these modes: --check and --diff take those of --fix
      --any-suffix     for --bad: accept any suffix, and numbers out of range,
                       as macros do" },
    OptionRow { name: "--no-stray", letter: '\0', modes: TOKENS, value: Value::None, help: "
      --no-stray       for --bad, --only, --find and without a mode: a stray
                       character, at which no token begins, is an error" },
    OptionRow { name: "--edition", letter: '\0', modes: BAD_OR_REWRITING, value: Value::Word("2015, 2018, 2021 or 2024"), help: "
      --edition YEAR   for --bad and --fix: the edition whose reserved prefixes
                       are errors: 2015, 2018, 2021 (default) or 2024" },
    OptionRow { name: "--allow", letter: '\0', modes: BAD_OR_INVISIBLE, value: Value::Id("the id of a finding, such as unknown-suffix"), help: "
      --allow ID       for --bad and --invisible: print no findings with the id
                       ID, which --json prints; for --invisible, ID may also be
                       a character, such as U+200B; may be repeated" },
    OptionRow { name: "--ignore-case", letter: 'i', modes: FIND, value: Value::None, help: "
  -i, --ignore-case    for --find: ignore the case of ASCII letters" },
    OptionRow { name: "--word", letter: 'w', modes: FIND, value: Value::None, help: "
  -w, --word           for --find: match only whole words" },
    OptionRow { name: "--style", letter: '\0', modes: REWRITING, value: Value::Text("a file with rules, such as style.txt"), help: "
      --style FILE     for --fix: rewrite by the rules in FILE; without it, drop
                       needless escapes of quotes and needless hashes, and write
                       1e5 for 1E5" },
    OptionRow { name: "--rule", letter: '\0', modes: REWRITING, value: Value::Rule("a rule of --rules, such as fewest_hashes"), help: "
      --rule RULE      for --fix: rewrite by this rule of --rules; RULE is
                       NAME=VALUE, or NAME for NAME=true; may be repeated" },
    OptionRow { name: "--macros", letter: '\0', modes: BAD_OR_REWRITING, value: Value::Word("skip or all"), help: "
      --macros WHICH   skip or all: with skip, the default, --fix leaves
                       literals in macro calls, macro_rules! and attributes
                       unchanged, and --bad doesn't check their suffixes and
                       ranges" },
    OptionRow { name: "--all", letter: '\0', modes: ALL, value: Value::None, help: "

Files:
      --all            also read hidden files and directories, and `target`" },
    OptionRow { name: "--extension", letter: '\0', modes: ALL, value: Value::Extension("one extension, such as rs.in"), help: "
      --extension EXT  in directories, read *.EXT instead of *.rs; may be
                       repeated" },
    OptionRow { name: "--exclude", letter: '\0', modes: ALL, value: Value::Pattern("a pattern, such as tests/ui"), help: "
      --exclude GLOB   in directories, skip what GLOB matches, as in .gitignore,
                       with *, ?, ** and / only; may be repeated" },
    OptionRow { name: "--files-from", letter: '\0', modes: ALL, value: Value::Text("a file that lists paths, such as list.txt"), help: "
      --files-from FILE
                       also read the paths in FILE, which end with line ends, or
                       with NUL; `-` is standard input; may be repeated" },
    OptionRow { name: "--files", letter: '\0', modes: READING, value: Value::None, help: "
      --files          print the paths of the files that would be read, and read
                       none" },
    OptionRow { name: "--lines", letter: '\0', modes: LISTING, value: Value::None, help: "

Output:
      --lines          print positions as LINE:COLUMN, the default for files" },
    OptionRow { name: "--bytes", letter: '\0', modes: LISTING, value: Value::None, help: "
      --bytes          print byte ranges LO..HI, the default for standard input" },
    OptionRow { name: "--columns", letter: '\0', modes: LISTING, value: Value::Word("characters or bytes"), help: "
      --columns UNIT   characters or bytes: count columns in characters, which
                       is the default, or in bytes, as vim's %c does" },
    OptionRow { name: "--text", letter: '\0', modes: LITERALS, value: Value::None, help: "
      --text           print literals as written" },
    OptionRow { name: "--json", letter: '\0', modes: LISTING, value: Value::None, help: "
      --json           print one JSON object per finding" },
    OptionRow { name: "--format", letter: '\0', modes: LISTING, value: Value::Word("text, json or github"), help: "
      --format FORM    text; json, as --json; or github, for annotations" },
    OptionRow { name: "--context", letter: 'C', modes: LISTING, value: Value::Number("a number of lines, such as 2"), help: "
  -C, --context NUM    show the source line, and NUM lines before and after it" },
    OptionRow { name: "--before-context", letter: 'B', modes: LISTING, value: Value::Number("a number of lines, such as 2"), help: "
  -B, --before-context NUM
                       show the source line, and NUM lines before it" },
    OptionRow { name: "--after-context", letter: 'A', modes: LISTING, value: Value::Number("a number of lines, such as 2"), help: "
  -A, --after-context NUM
                       show the source line, and NUM lines after it" },
    OptionRow { name: "--color", letter: '\0', modes: ALL, value: Value::Word("auto, always or never"), help: "
      --color WHEN     auto, always or never; auto means on a terminal, unless
                       NO_COLOR is set and not empty, or TERM is dumb" },
    OptionRow { name: "--count", letter: 'c', modes: LISTING, value: Value::None, help: "
  -c, --count          print the number of findings of each file that has some" },
    OptionRow { name: "--files-with-matches", letter: 'l', modes: LISTING, value: Value::None, help: "
  -l, --files-with-matches
                       print the path of each file that has findings" },
    OptionRow { name: "--null", letter: 'Z', modes: ALL, value: Value::None, help: "
  -Z, --null           end the paths of -c, -l and --files with NUL" },
    OptionRow { name: "--quiet", letter: 'q', modes: ALL, value: Value::None, help: "
  -q, --quiet          print no findings; errors, totals and the output of --fix
                       for standard input are still printed" },
    OptionRow { name: "--no-messages", letter: '\0', modes: ALL, value: Value::None, help: "
      --no-messages    print no errors and no warnings of files; the exit status
                       stays the same" },
    OptionRow { name: "--stats", letter: '\0', modes: ALL, value: Value::None, help: "
      --stats          print totals at the end: files read, files with findings,
                       findings, and files with an error; for --fix, also how
                       many literals each rule changes" },
    OptionRow { name: "--", letter: '\0', modes: ALL, value: Value::None, help: "
      --               every argument that follows is a PATH" },
    OptionRow { name: "--rules", letter: '\0', modes: ALL, value: Value::None, help: "
      --rules          print the rules of a style, with values and examples" },
    OptionRow { name: "--generate", letter: '\0', modes: ALL, value: Value::Word("man, bash, zsh, fish, sarif-jq or problem-matcher"), help: "
      --generate WHAT  man, bash, zsh, fish, sarif-jq or problem-matcher: print
                       the manual page, the completions for this shell, a jq
                       program that makes SARIF of --json, or a file with
                       problem matchers for GitHub" },
    OptionRow { name: "--help", letter: 'h', modes: ALL, value: Value::None, help: "
  -h, --help           print this help" },
    OptionRow { name: "--version", letter: 'V', modes: ALL, value: Value::None, help: "
  -V, --version        print the version" },
];

pub(crate) fn row_named(name: &str) -> Option<OptionRow> {
    OPTIONS.iter().find(|row| row.name == name).copied()
}

pub(crate) fn row_lettered(letter: char) -> Option<OptionRow> {
    if letter == '\0' {
        return None;
    }
    OPTIONS.iter().find(|row| row.letter == letter).copied()
}

impl OptionRow {
    pub(crate) fn has_value(&self) -> bool {
        !matches!(self.value, Value::None)
    }

    pub(crate) fn expected(&self) -> &'static str {
        match self.value {
            Value::None => "",
            Value::Word(text)
            | Value::Kinds(text)
            | Value::Number(text)
            | Value::Integer(text)
            | Value::Extension(text)
            | Value::Pattern(text)
            | Value::Id(text)
            | Value::Rule(text)
            | Value::Text(text) => text,
        }
    }
}
