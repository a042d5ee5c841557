// Rendered from crates/rl_scan/src/generated.rt by tools/render, which erases contracts: change that file, and render again.
//! The texts that `rl_scan --generate` prints. `tools/manual` writes this file.

const MAN: &str = r#".TH RL_SCAN 1 2026-12-01
.SH NAME
rl_scan \- prints the literals of Rust source files, or the errors in them
.SH SYNOPSIS
rl_scan [OPTIONS] [PATH..]
.SH DESCRIPTION
Prints the literals of Rust source files, or the errors in them.
.PP
A PATH is a file or a directory. In a directory, rl_scan reads the *.rs files, sorted by their paths. It skips hidden files and directories, and `target` beside a Cargo.toml, and doesn't follow symbolic links. `\-` is standard input. Without a PATH and \-\-files\-from, rl_scan reads standard input if that is a file, a pipe or a socket. Otherwise, or with \-\-files, it reads the current directory.
.SH OPTIONS
.SS Modes
One at most, except \-\-only with \-\-find, \-\-fix, \-\-check or \-\-diff.
.IP "\fB\-\-bad\fR"
Print the literals that Rust rejects, and unclosed quotes and comments.
.IP "\fB\-\-invisible\fR"
Print invisible and bidirectional characters, anywhere in a file.
.IP "\fB\-\-only KIND,..\fR"
Print the literals of these kinds: Str ByteStr CStr Byte Char Int Float Bool Verbatim, in any case.
.IP "\fB\-e, \-\-find TEXT\fR"
Print the string, character and byte literals whose value contains TEXT; may be repeated.
.IP "\fB\-\-number N\fR"
Print the integers that represent the number N, written in any base; may be repeated, also with \-\-find.
.IP "\fB\-\-fix\fR"
Rewrite files in a style, and print how many literals of each file changed; for standard input, print the rewritten source.
.IP "\fB\-\-check\fR"
Print the changes that \-\-fix would make.
.IP "\fB\-\-diff\fR"
Print these changes as a unified diff.
.SS Options of these modes
\-\-check and \-\-diff take those of \-\-fix.
.IP "\fB\-\-any\-suffix\fR"
For \-\-bad: accept any suffix, and numbers out of range, as macros do.
.IP "\fB\-\-no\-stray\fR"
For \-\-bad, \-\-only, \-\-find and without a mode: a stray character, at which no token begins, is an error.
.IP "\fB\-\-edition YEAR\fR"
For \-\-bad and \-\-fix: the edition whose reserved prefixes are errors: 2015, 2018, 2021 (default) or 2024.
.IP "\fB\-\-allow ID\fR"
For \-\-bad and \-\-invisible: print no findings with the id ID, which \-\-json prints; for \-\-invisible, ID may also be a character, such as U+200B; may be repeated.
.IP "\fB\-i, \-\-ignore\-case\fR"
For \-\-find: ignore the case of ASCII letters.
.IP "\fB\-w, \-\-word\fR"
For \-\-find: match only whole words.
.IP "\fB\-\-style FILE\fR"
For \-\-fix: rewrite by the rules in FILE; without it, drop needless escapes of quotes and needless hashes, and write 1e5 for 1E5.
.IP "\fB\-\-rule RULE\fR"
For \-\-fix: rewrite by this rule of \-\-rules; RULE is NAME=VALUE, or NAME for NAME=true; may be repeated.
.IP "\fB\-\-macros WHICH\fR"
skip or all: with skip, the default, \-\-fix leaves literals in macro calls, macro_rules! and attributes unchanged, and \-\-bad doesn't check their suffixes and ranges.
.SS Files
.IP "\fB\-\-all\fR"
Also read hidden files and directories, and `target`.
.IP "\fB\-\-extension EXT\fR"
In directories, read *.EXT instead of *.rs; may be repeated.
.IP "\fB\-\-exclude GLOB\fR"
In directories, skip what GLOB matches, as in .gitignore, with *, ?, ** and / only; may be repeated.
.IP "\fB\-\-files\-from FILE\fR"
Also read the paths in FILE, which end with line ends, or with NUL; `\-` is standard input; may be repeated.
.IP "\fB\-\-files\fR"
Print the paths of the files that would be read, and read none.
.SS Output
.IP "\fB\-\-lines\fR"
Print positions as LINE:COLUMN, the default for files.
.IP "\fB\-\-bytes\fR"
Print byte ranges LO..HI, the default for standard input.
.IP "\fB\-\-columns UNIT\fR"
characters or bytes: count columns in characters, which is the default, or in bytes, as vim's %c does.
.IP "\fB\-\-text\fR"
Print literals as written.
.IP "\fB\-\-json\fR"
Print one JSON object per finding.
.IP "\fB\-\-format FORM\fR"
text; json, as \-\-json; or github, for annotations.
.IP "\fB\-C, \-\-context NUM\fR"
Show the source line, and NUM lines before and after it.
.IP "\fB\-B, \-\-before\-context NUM\fR"
Show the source line, and NUM lines before it.
.IP "\fB\-A, \-\-after\-context NUM\fR"
Show the source line, and NUM lines after it.
.IP "\fB\-\-color WHEN\fR"
auto, always or never; auto means on a terminal, unless NO_COLOR is set and not empty, or TERM is dumb.
.IP "\fB\-c, \-\-count\fR"
Print the number of findings of each file that has some.
.IP "\fB\-l, \-\-files\-with\-matches\fR"
Print the path of each file that has findings.
.IP "\fB\-Z, \-\-null\fR"
End the paths of \-c, \-l and \-\-files with NUL.
.IP "\fB\-q, \-\-quiet\fR"
Print no findings; errors, totals and the output of \-\-fix for standard input are still printed.
.IP "\fB\-\-no\-messages\fR"
Print no errors and no warnings of files; the exit status stays the same.
.IP "\fB\-\-stats\fR"
Print totals at the end: files read, files with findings, findings, and files with an error; for \-\-fix, also how many literals each rule changes.
.IP "\fB\-\-\fR"
Every argument that follows is a PATH.
.IP "\fB\-\-rules\fR"
Print the rules of a style, with values and examples.
.IP "\fB\-\-generate WHAT\fR"
man, bash, zsh, fish, sarif\-jq or problem\-matcher: print the manual page, the completions for this shell, a jq program that makes SARIF of \-\-json, or a file with problem matchers for GitHub.
.IP "\fB\-h, \-\-help\fR"
Print this help.
.IP "\fB\-V, \-\-version\fR"
Print the version.
.SH OUTPUT
.nf
  PATH:LINE:COLUMN: KIND VALUE SUFFIX
  PATH:LINE:COLUMN: error: MESSAGE: PIECE
  PATH:LINE:COLUMN: U+202E RIGHT\-TO\-LEFT OVERRIDE
  PATH:LINE:COLUMN: OLD \-> NEW [RULE, ..]
  LO..HI KIND VALUE SUFFIX
.fi
.SH EXIT STATUS
.nf
  0  success
  1  \-\-bad or \-\-invisible found something; \-\-find found nothing; \-\-check or
     \-\-diff found a change
  2  an error: invalid arguments, no file to read, or an error of a file: it
     can't be read, it has an unclosed quote or comment (except with \-\-bad and
     \-\-invisible), or \-\-fix, \-\-check or \-\-diff rejects it; the other files are
     still read
.fi
.SH EXAMPLES
.nf
  rl_scan \-\-bad src
  rl_scan \-wie todo src tests
  rl_scan \-\-check src
  git ls\-files \-z '*.rs' | rl_scan \-\-invisible \-\-files\-from \-
.fi
"#;

const BASH: &str = r#"_rl_scan() {
    local word=${COMP_WORDS[COMP_CWORD]} before=${COMP_WORDS[COMP_CWORD - 1]} at
    # bash cuts --option=word in three
    if [[ $word == "=" ]]; then
        word=
    elif [[ $before == "=" ]]; then
        before=${COMP_WORDS[COMP_CWORD - 2]}
    fi
    for ((at = 1; at < COMP_CWORD; at++)); do
        [[ ${COMP_WORDS[at]} == -- ]] && before=--
    done
    case $before in
    --only) at=; [[ $word == *,* ]] && at=${word%,*},; mapfile -t COMPREPLY < <(compgen -W "Str ByteStr CStr Byte Char Int Float Bool Verbatim" -P "$at" -- "${word##*,}"); return ;;
    -e|--find|--number|--extension|--exclude|-C|--context|-B|--before-context|-A|--after-context) mapfile -t COMPREPLY < <(compgen -W "" -- "$word"); return ;;
    --edition) mapfile -t COMPREPLY < <(compgen -W "2015 2018 2021 2024" -- "$word"); return ;;
    --allow) mapfile -t COMPREPLY < <(compgen -W "empty no-literal unfinished no-quote no-number unknown-escape unicode-escape-in-bytes no-hexadecimal-digit no-brace empty-braces too-many-digits past-ascii past-unicode surrogate nul not-ascii must-escape no-character two-characters no-exponent-digit bad-suffix integer-too-large minus too-many-hashes carriage-return early-quote extra-hash underscore-suffix no-digits digit-of-base based-float no-fraction-digit reserved-prefix quoted-suffix unknown-suffix float-suffix out-of-range stray-character bidirectional-character joiner variation-selector control-character invisible-character" -- "$word"); return ;;
    --rule) mapfile -t COMPREPLY < <(compgen -W "hex_digits drop_underscores drop_leading_zeros suffix_separator binary_groups octal_groups decimal_groups hexadecimal_groups min_digits float_zero exponent_letter drop_exponent_plus escape_digits fewest_escape_digits drop_ascii_escapes named_escapes drop_quote_escapes fewest_hashes drop_raw escape_invisible" -- "$word"); return ;;
    --macros) mapfile -t COMPREPLY < <(compgen -W "skip all" -- "$word"); return ;;
    --columns) mapfile -t COMPREPLY < <(compgen -W "characters bytes" -- "$word"); return ;;
    --format) mapfile -t COMPREPLY < <(compgen -W "text json github" -- "$word"); return ;;
    --color) mapfile -t COMPREPLY < <(compgen -W "auto always never" -- "$word"); return ;;
    --generate) mapfile -t COMPREPLY < <(compgen -W "man bash zsh fish sarif-jq problem-matcher" -- "$word"); return ;;
    --|--style|--files-from) ;;
    *) [[ $word == -* ]] && mapfile -t COMPREPLY < <(compgen -W "--bad --invisible --only -e --find --number --fix --check --diff --any-suffix --no-stray --edition --allow -i --ignore-case -w --word --style --rule --macros --all --extension --exclude --files-from --files --lines --bytes --columns --text --json --format -C --context -B --before-context -A --after-context --color -c --count -l --files-with-matches -Z --null -q --quiet --no-messages --stats -- --rules --generate -h --help -V --version" -- "$word") && return ;;
    esac
    mapfile -t COMPREPLY < <(compgen -f -- "$word")
}
complete -o filenames -F _rl_scan rl_scan
"#;

const ZSH: &str = r"#compdef rl_scan
_arguments -s -S \
    '--bad[print the literals that Rust rejects, and unclosed quotes and comments]' \
    '--invisible[print invisible and bidirectional characters, anywhere in a file]' \
    '--only=[print the literals of these kinds: Str ByteStr CStr Byte Char Int Float Bool Verbatim, in any case]:KIND,..:_values -s , KIND Str ByteStr CStr Byte Char Int Float Bool Verbatim' \
    '*'{-e+,--find=}'[print the string, character and byte literals whose value contains TEXT; may be repeated]:TEXT: ' \
    '*--number=[print the integers that represent the number N, written in any base; may be repeated, also with --find]:N: ' \
    '--fix[rewrite files in a style, and print how many literals of each file changed; for standard input, print the rewritten source]' \
    '--check[print the changes that --fix would make]' \
    '--diff[print these changes as a unified diff]' \
    '--any-suffix[for --bad: accept any suffix, and numbers out of range, as macros do]' \
    '--no-stray[for --bad, --only, --find and without a mode: a stray character, at which no token begins, is an error]' \
    '--edition=[for --bad and --fix: the edition whose reserved prefixes are errors: 2015, 2018, 2021 (default) or 2024]:YEAR:(2015 2018 2021 2024)' \
    '*--allow=[for --bad and --invisible: print no findings with the id ID, which --json prints; for --invisible, ID may also be a character, such as U+200B; may be repeated]:ID:(empty no-literal unfinished no-quote no-number unknown-escape unicode-escape-in-bytes no-hexadecimal-digit no-brace empty-braces too-many-digits past-ascii past-unicode surrogate nul not-ascii must-escape no-character two-characters no-exponent-digit bad-suffix integer-too-large minus too-many-hashes carriage-return early-quote extra-hash underscore-suffix no-digits digit-of-base based-float no-fraction-digit reserved-prefix quoted-suffix unknown-suffix float-suffix out-of-range stray-character bidirectional-character joiner variation-selector control-character invisible-character)' \
    {-i,--ignore-case}'[for --find: ignore the case of ASCII letters]' \
    {-w,--word}'[for --find: match only whole words]' \
    '--style=[for --fix: rewrite by the rules in FILE; without it, drop needless escapes of quotes and needless hashes, and write 1e5 for 1E5]:FILE:_files' \
    '*--rule=[for --fix: rewrite by this rule of --rules; RULE is NAME=VALUE, or NAME for NAME=true; may be repeated]:RULE:(hex_digits drop_underscores drop_leading_zeros suffix_separator binary_groups octal_groups decimal_groups hexadecimal_groups min_digits float_zero exponent_letter drop_exponent_plus escape_digits fewest_escape_digits drop_ascii_escapes named_escapes drop_quote_escapes fewest_hashes drop_raw escape_invisible)' \
    '--macros=[skip or all: with skip, the default, --fix leaves literals in macro calls, macro_rules! and attributes unchanged, and --bad doesn'\''t check their suffixes and ranges]:WHICH:(skip all)' \
    '--all[also read hidden files and directories, and `target`]' \
    '*--extension=[in directories, read *.EXT instead of *.rs; may be repeated]:EXT: ' \
    '*--exclude=[in directories, skip what GLOB matches, as in .gitignore, with *, ?, ** and / only; may be repeated]:GLOB: ' \
    '*--files-from=[also read the paths in FILE, which end with line ends, or with NUL; `-` is standard input; may be repeated]:FILE:_files' \
    '--files[print the paths of the files that would be read, and read none]' \
    '--lines[print positions as LINE:COLUMN, the default for files]' \
    '--bytes[print byte ranges LO..HI, the default for standard input]' \
    '--columns=[characters or bytes: count columns in characters, which is the default, or in bytes, as vim'\''s %c does]:UNIT:(characters bytes)' \
    '--text[print literals as written]' \
    '--json[print one JSON object per finding]' \
    '--format=[text; json, as --json; or github, for annotations]:FORM:(text json github)' \
    {-C+,--context=}'[show the source line, and NUM lines before and after it]:NUM: ' \
    {-B+,--before-context=}'[show the source line, and NUM lines before it]:NUM: ' \
    {-A+,--after-context=}'[show the source line, and NUM lines after it]:NUM: ' \
    '--color=[auto, always or never; auto means on a terminal, unless NO_COLOR is set and not empty, or TERM is dumb]:WHEN:(auto always never)' \
    {-c,--count}'[print the number of findings of each file that has some]' \
    {-l,--files-with-matches}'[print the path of each file that has findings]' \
    {-Z,--null}'[end the paths of -c, -l and --files with NUL]' \
    {-q,--quiet}'[print no findings; errors, totals and the output of --fix for standard input are still printed]' \
    '--no-messages[print no errors and no warnings of files; the exit status stays the same]' \
    '--stats[print totals at the end: files read, files with findings, findings, and files with an error; for --fix, also how many literals each rule changes]' \
    '--rules[print the rules of a style, with values and examples]' \
    '--generate=[man, bash, zsh, fish, sarif-jq or problem-matcher: print the manual page, the completions for this shell, a jq program that makes SARIF of --json, or a file with problem matchers for GitHub]:WHAT:(man bash zsh fish sarif-jq problem-matcher)' \
    {-h,--help}'[print this help]' \
    {-V,--version}'[print the version]' \
    '*:PATH:_files'
";

const FISH: &str =
    r#"complete -c rl_scan -l bad -d 'print the literals that Rust rejects, and unclosed quotes and comments'
complete -c rl_scan -l invisible -d 'print invisible and bidirectional characters, anywhere in a file'
complete -c rl_scan -l only -x -a '(__fish_complete_list , "string split \" \" \"Str ByteStr CStr Byte Char Int Float Bool Verbatim\"")' -d 'print the literals of these kinds: Str ByteStr CStr Byte Char Int Float Bool Verbatim, in any case'
complete -c rl_scan -s e -l find -x -d 'print the string, character and byte literals whose value contains TEXT; may be repeated'
complete -c rl_scan -l number -x -d 'print the integers that represent the number N, written in any base; may be repeated, also with --find'
complete -c rl_scan -l fix -d 'rewrite files in a style, and print how many literals of each file changed; for standard input, print the rewritten source'
complete -c rl_scan -l check -d 'print the changes that --fix would make'
complete -c rl_scan -l diff -d 'print these changes as a unified diff'
complete -c rl_scan -l any-suffix -d 'for --bad: accept any suffix, and numbers out of range, as macros do'
complete -c rl_scan -l no-stray -d 'for --bad, --only, --find and without a mode: a stray character, at which no token begins, is an error'
complete -c rl_scan -l edition -x -a '2015 2018 2021 2024' -d 'for --bad and --fix: the edition whose reserved prefixes are errors: 2015, 2018, 2021 (default) or 2024'
complete -c rl_scan -l allow -x -a 'empty no-literal unfinished no-quote no-number unknown-escape unicode-escape-in-bytes no-hexadecimal-digit no-brace empty-braces too-many-digits past-ascii past-unicode surrogate nul not-ascii must-escape no-character two-characters no-exponent-digit bad-suffix integer-too-large minus too-many-hashes carriage-return early-quote extra-hash underscore-suffix no-digits digit-of-base based-float no-fraction-digit reserved-prefix quoted-suffix unknown-suffix float-suffix out-of-range stray-character bidirectional-character joiner variation-selector control-character invisible-character' -d 'for --bad and --invisible: print no findings with the id ID, which --json prints; for --invisible, ID may also be a character, such as U+200B; may be repeated'
complete -c rl_scan -s i -l ignore-case -d 'for --find: ignore the case of ASCII letters'
complete -c rl_scan -s w -l word -d 'for --find: match only whole words'
complete -c rl_scan -l style -r -d 'for --fix: rewrite by the rules in FILE; without it, drop needless escapes of quotes and needless hashes, and write 1e5 for 1E5'
complete -c rl_scan -l rule -x -a 'hex_digits drop_underscores drop_leading_zeros suffix_separator binary_groups octal_groups decimal_groups hexadecimal_groups min_digits float_zero exponent_letter drop_exponent_plus escape_digits fewest_escape_digits drop_ascii_escapes named_escapes drop_quote_escapes fewest_hashes drop_raw escape_invisible' -d 'for --fix: rewrite by this rule of --rules; RULE is NAME=VALUE, or NAME for NAME=true; may be repeated'
complete -c rl_scan -l macros -x -a 'skip all' -d 'skip or all: with skip, the default, --fix leaves literals in macro calls, macro_rules! and attributes unchanged, and --bad doesn\'t check their suffixes and ranges'
complete -c rl_scan -l all -d 'also read hidden files and directories, and `target`'
complete -c rl_scan -l extension -x -d 'in directories, read *.EXT instead of *.rs; may be repeated'
complete -c rl_scan -l exclude -x -d 'in directories, skip what GLOB matches, as in .gitignore, with *, ?, ** and / only; may be repeated'
complete -c rl_scan -l files-from -r -d 'also read the paths in FILE, which end with line ends, or with NUL; `-` is standard input; may be repeated'
complete -c rl_scan -l files -d 'print the paths of the files that would be read, and read none'
complete -c rl_scan -l lines -d 'print positions as LINE:COLUMN, the default for files'
complete -c rl_scan -l bytes -d 'print byte ranges LO..HI, the default for standard input'
complete -c rl_scan -l columns -x -a 'characters bytes' -d 'characters or bytes: count columns in characters, which is the default, or in bytes, as vim\'s %c does'
complete -c rl_scan -l text -d 'print literals as written'
complete -c rl_scan -l json -d 'print one JSON object per finding'
complete -c rl_scan -l format -x -a 'text json github' -d 'text; json, as --json; or github, for annotations'
complete -c rl_scan -s C -l context -x -d 'show the source line, and NUM lines before and after it'
complete -c rl_scan -s B -l before-context -x -d 'show the source line, and NUM lines before it'
complete -c rl_scan -s A -l after-context -x -d 'show the source line, and NUM lines after it'
complete -c rl_scan -l color -x -a 'auto always never' -d 'auto, always or never; auto means on a terminal, unless NO_COLOR is set and not empty, or TERM is dumb'
complete -c rl_scan -s c -l count -d 'print the number of findings of each file that has some'
complete -c rl_scan -s l -l files-with-matches -d 'print the path of each file that has findings'
complete -c rl_scan -s Z -l null -d 'end the paths of -c, -l and --files with NUL'
complete -c rl_scan -s q -l quiet -d 'print no findings; errors, totals and the output of --fix for standard input are still printed'
complete -c rl_scan -l no-messages -d 'print no errors and no warnings of files; the exit status stays the same'
complete -c rl_scan -l stats -d 'print totals at the end: files read, files with findings, findings, and files with an error; for --fix, also how many literals each rule changes'
complete -c rl_scan -l rules -d 'print the rules of a style, with values and examples'
complete -c rl_scan -l generate -x -a 'man bash zsh fish sarif-jq problem-matcher' -d 'man, bash, zsh, fish, sarif-jq or problem-matcher: print the manual page, the completions for this shell, a jq program that makes SARIF of --json, or a file with problem matchers for GitHub'
complete -c rl_scan -s h -l help -d 'print this help'
complete -c rl_scan -s V -l version -d 'print the version'
"#;

const SARIF_JQ: &str =
    r#"# Makes one document of SARIF 2.1.0 from the objects that `rl_scan --json` prints with `--bad`, `--invisible` or `--check`:
#     rl_scan --generate sarif-jq > sarif.jq
#     rl_scan --json --bad src | jq -s -f sarif.jq
# Columns are counted in characters. The object of `--stats` is left out. For standard input the path is `-`.
# Two arguments add what the objects don't contain. `--arg version "$(rl_scan -V)"` is the program's version. `--arg status N` is its exit
# status; without it the document has no invocation:
#     rl_scan --json --bad src > found; jq -s --arg status $? --arg version "$(rl_scan -V)" -f sarif.jq found
def uri:
  sub("^(\\./+)+"; "") | split("/") | map(@uri) | join("/") | if startswith("/") then "file://" + . else . end;
def rule: if has("new") then .rules[0] // "style" else .id end;
def description: if has("hidden") then (.id | gsub("-"; " ")) elif has("new") then "rule of a style: \(rule)" else .error end;
def message:
  if has("hidden") then .hidden
  elif has("new") then "\(.text) -> \(.new)"
  elif has("piece") and .piece != "" then "\(.error): \(.piece)"
  elif has("error") then .error
  else error("an object of none of --bad, --invisible and --check") end;
def result:
  {ruleId: rule, level: "error", message: {text: message}, locations: [{physicalLocation: {
    artifactLocation: {uri: ((.path // "-") | uri)},
    region: {startLine: .line, startColumn: .column, endLine: .end_line, endColumn: .end_column}}}]};
def rules: group_by(rule) | map({id: (.[0] | rule), shortDescription: {text: (.[0] | description)}});
def driver: {name: "rl_scan"} + ($ARGS.named.version | if . then {version: split(" ")[-1]} else {} end);
def invocations:
  $ARGS.named.status | if . then {invocations: [tonumber | {executionSuccessful: (. < 2), exitCode: .}]} else {} end;
map(select(has("files_with_findings") | not))
| {version: "2.1.0", "$schema": "https://json.schemastore.org/sarif-2.1.0.json", runs: [
    {tool: {driver: (driver + {rules: rules})}, columnKind: "unicodeCodePoints", results: map(result)} + invocations]}
"#;

const PROBLEM_MATCHER: &str = r#"{
  "problemMatcher": [
    { "owner": "rl_scan-bad",
      "pattern": [{ "regexp": "^(.+?):(\\d+):(\\d+): (error): (.+)$", "file": 1, "line": 2, "column": 3, "severity": 4, "message": 5 }] },
    { "owner": "rl_scan-invisible", "severity": "error",
      "pattern": [{ "regexp": "^(.+?):(\\d+):(\\d+): (U\\+[0-9A-F]{4,6}(?: .+)?)$", "file": 1, "line": 2, "column": 3, "message": 4 }] },
    { "owner": "rl_scan-check", "severity": "error",
      "pattern": [{ "regexp": "^(.+?):(\\d+):(\\d+): (?!error: )(.+ -> .+ \\[[a-z_, ]*\\])$", "file": 1, "line": 2, "column": 3, "message": 4 }] }
  ]
}
"#;

pub(crate) fn generated_text(what: &str) -> &'static str {
    match what {
        "man" => MAN,
        "bash" => BASH,
        "zsh" => ZSH,
        "fish" => FISH,
        "sarif-jq" => SARIF_JQ,
        _ => PROBLEM_MATCHER,
    }
}
