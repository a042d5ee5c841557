//! Generates texts of settings. Each text is assembled from parts, so its expected parse result is known without a parser.

use crate::texts::Random;
use std::fmt::Write;

const NAMES: &[&str] = &[
    "a",
    "A",
    "port",
    "ports",
    "true",
    "fn",
    "_",
    "é1",
    "max_size",
    "max_size_of",
    "max_size_of_it",
    "maximum_size_of_a",
    "maximum_size_of_b",
];

/// Literals. The second text is the literal without white space and comments after its minus.
const VALUES: &[(&str, &str)] = &[
    ("1", "1"),
    ("-0", "-0"),
    ("- 0", "-0"),
    ("-0x0", "-0x0"),
    ("-/* = */1.5f32", "-1.5f32"),
    ("0b102", "0b102"),
    ("true", "true"),
    ("\"a, b = c\"", "\"a, b = c\""),
    ("\"a\"x", "\"a\"x"),
    ("\"\\q\"", "\"\\q\""),
    ("r#\"(\"]\"#", "r#\"(\"]\"#"),
    ("'='", "'='"),
    ("b','", "b','"),
    ("c\"{\"", "c\"{\""),
    (
        "340282366920938463463374607431768211456",
        "340282366920938463463374607431768211456",
    ),
];

const GAPS: &[&str] = &[
    "",
    "",
    " ",
    "\n",
    "\r\n\t",
    " /* a = 1, */ ",
    " // ,\n",
    "/*(*/",
];

/// Token trees that aren't a name, `=`, a literal or a comma. The number is the length of the text after the first token tree.
const NO_NAMES: &[&str] = &["1", "\"a\"", "(a, b)", "[{} ()]", "-", ",", "=", "'a'"];
const NO_EQUALS: &[&str] = &[":", "(=)", "b", "\"a\"", "-", "1", ",", "{}"];
const NO_VALUES: &[(&str, usize)] = &[
    ("word", 0),
    ("(1)", 0),
    ("{ a = [1] }", 0),
    ("=", 0),
    (",", 0),
    ("-\"a\"", 3),
    ("- word", 5),
    ("-340282366920938463463374607431768211456", 39),
];
const NO_COMMAS: &[&str] = &[";", "(,)", "b", "1", "'a'", "=", "[ , ]"];

/// Texts that the lexer rejects, with the error's position and length in the text (0: up to its end), and its message.
const REJECTED: &[(&str, usize, usize, &str)] = &[
    ("\"a", 0, 0, "unclosed quote"),
    ("r#\"a\"", 0, 0, "unclosed quote"),
    ("/* a", 0, 0, "unclosed block comment"),
    (
        "'a",
        0,
        2,
        "unexpected lifetime: a string has double quotes",
    ),
    ("r#a", 0, 3, "unexpected raw identifier"),
    ("\\", 0, 1, "stray character"),
    ("/// a", 0, 5, "unexpected doc comment"),
    (")", 0, 1, "unmatched closing delimiter"),
    ("({)", 2, 1, "unmatched closing delimiter"),
    ("[(]", 2, 1, "unmatched closing delimiter"),
    ("{[(", 2, 1, "unclosed group"),
    ("({}[]", 0, 1, "unclosed group"),
];

/// A text of settings, and its expected parse result: a line for each setting, or the error.
pub struct Made {
    pub text: String,
    pub answer: String,
}

/// The part of a generated setting that is wrong.
#[derive(Clone, Copy, PartialEq)]
enum Missed {
    Nothing,
    Name,
    Equals,
    Value,
    Comma,
    Repeated,
}

impl Made {
    fn gap(&mut self, r: &mut Random) {
        self.text += r.of(GAPS);
    }

    /// Appends a part to the text, and returns the part's byte range.
    fn part(&mut self, part: &str) -> (usize, usize) {
        let lo = self.text.len();
        self.text += part;
        (lo, self.text.len())
    }

    /// Sets the expected result to an error. The text may continue with more settings.
    fn fails(&mut self, r: &mut Random, (lo, hi): (usize, usize), words: &str) {
        self.answer = format!("{words} at {lo}..{hi}\n");
        if r.below(2) == 0 {
            self.text += " b = 1, b b";
        }
    }

    /// Appends a token tree in place of the expected part `word`, or ends the text there.
    fn misses(&mut self, r: &mut Random, tree: &str, others: usize, word: &str) {
        if r.below(4) == 0 {
            self.gap(r);
            let end = self.text.len();
            self.answer = format!("unexpected end of input, expected {word} at {end}..{end}\n");
            return;
        }
        self.text += " ";
        let (lo, hi) = self.part(tree);
        self.fails(r, (lo, hi - others), &format!("expected {word}"));
    }

    /// Appends a setting, one part of which may be wrong. Returns whether more settings may follow.
    fn setting(&mut self, r: &mut Random, names: &mut Vec<&'static str>, missed: Missed) -> bool {
        if missed == Missed::Name {
            let place = self.part(r.of(NO_NAMES));
            self.fails(r, place, "expected identifier");
            return false;
        }
        if missed == Missed::Repeated {
            let name = r.of(names);
            let place = self.part(name);
            self.fails(r, place, &format!("repeated name `{name}`"));
            return false;
        }
        let fresh: Vec<&'static str> = NAMES
            .iter()
            .copied()
            .filter(|it| !names.contains(it))
            .collect();
        let name = r.of(&fresh);
        names.push(name);
        let (name_lo, name_hi) = self.part(name);
        if missed == Missed::Equals {
            let tree = r.of(NO_EQUALS);
            self.misses(r, tree, 0, "`=`");
            return false;
        }
        self.gap(r);
        self.part("=");
        if missed == Missed::Value {
            let (tree, others) = r.of(NO_VALUES);
            self.misses(r, tree, others, "literal");
            return false;
        }
        self.gap(r);
        let (written, text) = r.of(VALUES);
        let (lo, hi) = self.part(written);
        if missed == Missed::Comma {
            self.text += " ";
            let place = self.part(r.of(NO_COMMAS));
            self.fails(r, place, "expected `,`");
            return false;
        }
        let _ = writeln!(self.answer, "{name} {name_lo}..{name_hi} {text} {lo}..{hi}");
        true
    }

    /// Appends a text that the lexer rejects. The lexer's error is the expected result, whatever precedes the text.
    fn rejected(&mut self, r: &mut Random) {
        self.text += " ";
        if r.below(20) == 0 {
            let lo = self.text.len() + 128;
            self.text += &"(".repeat(129);
            self.answer = format!("groups nested too deep at {lo}..{}\n", lo + 1);
            return;
        }
        let (text, at, len, words) = r.of(REJECTED);
        let (lo, end) = self.part(text);
        let lo = lo + at;
        let hi = if len == 0 { end } else { lo + len };
        self.answer = format!("{words} at {lo}..{hi}\n");
    }
}

/// Generates a text of up to four settings. Half of the texts have an error.
pub fn made(r: &mut Random) -> Made {
    let mut made = Made {
        text: String::new(),
        answer: String::new(),
    };
    let mut names = Vec::new();
    let count = r.below(5);
    let wrong_at = if r.below(2) == 0 { r.below(4) } else { 4 };
    made.gap(r);
    for at in 0..count {
        let missed = match r.below(5) {
            _ if at != wrong_at => Missed::Nothing,
            0 => Missed::Name,
            1 => Missed::Equals,
            2 => Missed::Value,
            3 => Missed::Comma,
            _ if at == 0 => Missed::Nothing,
            _ => Missed::Repeated,
        };
        if !made.setting(r, &mut names, missed) {
            break;
        }
        made.gap(r);
        if at + 1 < count || r.below(2) == 0 {
            made.part(",");
            made.gap(r);
        }
    }
    if r.below(8) == 0 {
        made.rejected(r);
    }
    made
}
