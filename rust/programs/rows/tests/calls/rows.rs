//! Reads tables of rows, and checks results against them.
//!
//! A heading, `# NAME`, begins the rows of one test. A row is a block of lines: the lines of the given text, after `<`, then the
//! lines of the expected result, after `>`. Empty lines are ignored. `⟨41⟩` is the character with this hexadecimal number, `⟨xFF⟩`
//! is a byte. White space at the end of an expected line isn't compared.

use std::fs;
use std::path::Path;

/// A given text, and the expected result.
struct Row {
    given: Vec<u8>,
    expected: String,
}

/// Divides a table into blocks: headings, of one line each, and rows.
fn blocks(table: &str) -> Vec<Vec<&str>> {
    let lines: Vec<&str> = table.split('\n').filter(|line| !line.is_empty()).collect();
    let is_inside = |line: &&str, next: &&str| {
        !line.starts_with("# ")
            && !next.starts_with("# ")
            && (line.starts_with('<') || !next.starts_with('<'))
    };
    lines.chunk_by(is_inside).map(<[&str]>::to_vec).collect()
}

/// Returns the name in a block that is a heading, or `None` for a row.
fn heading_of<'a>(block: &[&'a str]) -> Option<&'a str> {
    match block {
        [line] => line.strip_prefix("# "),
        _ => None,
    }
}

/// Parses a row. It panics if the block has other lines, or lacks a given text or an expected result.
fn row_of(block: &[&str]) -> Row {
    let count = block
        .iter()
        .take_while(|line| line.starts_with('<'))
        .count();
    let (given, expected) = block.split_at(count);
    let is_row = !given.is_empty()
        && !expected.is_empty()
        && expected.iter().all(|line| line.starts_with('>'));
    assert!(is_row, "no row: {block:?}");
    Row {
        given: unescaped(given),
        expected: String::from_utf8(unescaped(expected)).expect("the expected answer is text"),
    }
}

/// Returns the bytes that the lines of a stored call represent, with an LF between two lines. Each line begins with its mark, `<` or
/// `>`, which is dropped. `⟨N⟩` in a line represents a byte or a character by its number.
fn unescaped(lines: &[&str]) -> Vec<u8> {
    let lines = lines.iter().map(|line| &line[1..]);
    let lines: Vec<&str> = lines
        .map(|line| line.strip_prefix(' ').unwrap_or(line))
        .collect();
    let text = lines.join("\n");
    let mut parts = text.split('⟨');
    let mut bytes = parts.next().unwrap_or_default().as_bytes().to_vec();
    for part in parts {
        let (number, rest) = part.split_once('⟩').expect("`⟩` after `⟨`");
        bytes.extend(escaped(number));
        bytes.extend(rest.bytes());
    }
    bytes
}

/// Returns the bytes of the character or byte that the number in `⟨..⟩` represents.
fn escaped(number: &str) -> Vec<u8> {
    if let Some(byte) = number.strip_prefix('x') {
        return vec![u8::from_str_radix(byte, 16).expect("the number of a byte")];
    }
    let number = u32::from_str_radix(number, 16).expect("a hexadecimal number");
    let character = char::from_u32(number).expect("the number of a character");
    character.to_string().into_bytes()
}

/// Returns the rows below a heading.
fn below(table: &str, heading: &str) -> Vec<Row> {
    let blocks = blocks(table);
    let after = blocks
        .iter()
        .skip_while(|block| heading_of(block) != Some(heading))
        .skip(1);
    let rows = after.take_while(|block| heading_of(block).is_none());
    rows.map(|block| row_of(block)).collect()
}

/// Returns the lines of a text, without white space at their ends.
fn trimmed(text: &str) -> Vec<&str> {
    let text = text.strip_suffix('\n').unwrap_or(text);
    text.split('\n').map(str::trim_end).collect()
}

/// Checks the result of `answer` for each row below a heading. The given bytes needn't be UTF-8. If rows fail, all of them are
/// shown.
pub fn check_bytes(table: &str, heading: &str, answer: impl Fn(&[u8]) -> String) {
    let rows = below(table, heading);
    assert!(!rows.is_empty(), "no rows below {heading}");
    let mut wrong = String::new();
    for Row { given, expected } in &rows {
        let found = answer(given);
        if trimmed(&found) != trimmed(expected) {
            let given = String::from_utf8_lossy(given);
            wrong += &format!("given    {given}\nexpected {expected}\nfound    {found}\n");
        }
    }
    assert!(wrong.is_empty(), "{heading}:\n{wrong}");
}

/// Checks the result of `answer` for each row below a heading.
pub fn check(table: &str, heading: &str, answer: impl Fn(&str) -> String) {
    check_bytes(table, heading, |bytes| {
        answer(std::str::from_utf8(bytes).expect("the given text is UTF-8"))
    });
}

/// Checks that a table consists of headings and rows, that no heading occurs twice, and that a test calls a check function with
/// `TABLE` and each heading. `tests` is the text of the file of tests.
pub fn check_headings(table: &str, tests: &str) {
    let mut headings = Vec::new();
    for block in blocks(table) {
        match heading_of(&block) {
            Some(heading) => headings.push(heading),
            None => drop(row_of(&block)),
        }
    }
    for (at, heading) in headings.iter().enumerate() {
        let is_first = !headings[..at].contains(heading);
        assert!(is_first, "the heading {heading} occurs twice");
        let call = format!("(TABLE, \"{heading}\"");
        assert!(tests.contains(&call), "no test of {heading}");
    }
}

#[test]
fn each_table_has_a_file_of_tests() {
    let folder = Path::new(env!("CARGO_MANIFEST_DIR")).join("tests/calls");
    let paths = fs::read_dir(&folder).unwrap();
    let paths = paths.map(|entry| entry.unwrap().path());
    for table in paths.filter(|path| path.extension().is_some_and(|it| it == "rows")) {
        let name = table.file_stem().unwrap().to_str().unwrap();
        let is_module = include_str!("main.rs").contains(&format!("\nmod {name};\n"));
        let tests = fs::read_to_string(table.with_extension("rs")).unwrap_or_default();
        let call = format!("check_headings(TABLE, include_str!(\"{name}.rs\"))");
        assert!(
            is_module && tests.contains(&call),
            "no tests of {name}.rows"
        );
    }
}

const SMALL: &str = "# upper\n< a⟨62⟩\n< c\n> AB\n> C\n< ⟨xC3⟩⟨xA9⟩\n> É\n";

#[test]
fn right_answers_pass() {
    check(SMALL, "upper", |text| text.to_uppercase() + " \n");
    check_headings(SMALL, "check(TABLE, \"upper\", str::to_uppercase)");
}

#[test]
#[should_panic = "given    ab\nc\nexpected AB\nC\nfound    ab\nc\n"]
fn a_wrong_answer_fails() {
    check(SMALL, "upper", str::to_owned);
}

#[test]
#[should_panic = "no rows below lower"]
fn a_test_without_a_heading_fails() {
    check(SMALL, "lower", str::to_lowercase);
}

#[test]
#[should_panic = "no test of upper"]
fn a_heading_without_a_test_fails() {
    check_headings(SMALL, "check(TABLE, \"lower\", str::to_lowercase)");
}

#[test]
#[should_panic = "the heading upper occurs twice"]
fn a_heading_that_occurs_twice_fails() {
    check_headings(&format!("{SMALL}\n{SMALL}"), "(TABLE, \"upper\"");
}

#[test]
#[should_panic = "no row"]
fn a_line_that_is_neither_given_nor_expected_fails() {
    check_headings(&SMALL.replace("> AB", "AB"), "(TABLE, \"upper\"");
}

#[test]
#[should_panic = "no row"]
fn a_row_that_expects_nothing_fails() {
    check_headings(&SMALL.replace("\n> É", ""), "(TABLE, \"upper\"");
}
