//! Generates texts of settings, and all short texts that consist of given pieces.

use crate::asked::NAMES;

/// A generator of pseudorandom choices. The field is its state.
pub struct Picks(pub u64);

impl Picks {
    fn below(&mut self, bound: usize) -> usize {
        self.0 ^= self.0 << 13;
        self.0 ^= self.0 >> 7;
        self.0 ^= self.0 << 17;
        (self.0 >> 33) as usize % bound
    }

    fn of<'a>(&mut self, all: &[&'a str]) -> &'a str {
        all[self.below(all.len())]
    }
}

const VALUES: &[&str] = &[
    "1",
    "0",
    "-0",
    "- 0",
    "-0.0",
    "-/* minus */1",
    "-\"a\"",
    "-true",
    "- 1e",
    "0x1F_90",
    "0b12",
    "0o17",
    "1u8",
    "-1i32",
    "1_000",
    "65535",
    "65536",
    "1.5",
    "1.5f64",
    "1E+5",
    "1e",
    "340282366920938463463374607431768211455",
    "340282366920938463463374607431768211456",
    "true",
    "false",
    "truth",
    "\"a\"",
    "\"\"",
    "\"a\"x",
    "\"long enough\"_s",
    "\"a\\x41\\u{e9}é\"",
    "\"a\\q\"",
    "\"a\r\nb\"",
    "\"a\r\nb\\q\"",
    "\"a\rb\\\r\n c\"",
    "r#\"a\"b\"#",
    "r\"a\"x",
    "r\"\r\n\"",
    "b\"a\\xFF\"",
    "c\"a\"",
    "'a'",
    "'''",
    "b'a'q",
    "''",
    "'ab'",
    "'a",
    "r#a",
    "/// a\n1",
    "(1)",
    "[1, {2}]",
    "{ a = 1 }",
    "(1]",
    "\"a",
    "/* a",
    "#",
    "",
];

const NO_NAMES: &[&str] = &["r#a", "1", "\"a\"", "'a", "(a)", "fn", "port-", "\\", ""];
const MARKS: &[&str] = &[
    "=",
    " = ",
    "=",
    " = ",
    " /* = */ = ",
    " // =\r\n= ",
    "==",
    "=>",
    ":",
    "",
];
const COMMAS: &[&str] = &[
    ",",
    ", ",
    "\n, ",
    " /* , */ , // ,\n",
    ",\r\n",
    ",,",
    ";",
    "",
    " ",
];
const ENDS: &[&str] = &[
    "", "", "", " ", "\n", ",", ", \t\r\n", " // a", "/* a */", "/* a", ")", ",,",
];

/// Generates a text of settings. In a third of the texts, names, punctuation and commas may be invalid.
pub fn settings(r: &mut Picks) -> String {
    let mut text = String::new();
    let is_good = r.below(3) > 0;
    let (marks, commas, ends) = if is_good {
        (&MARKS[..4], &COMMAS[..5], &ENDS[..9])
    } else {
        (MARKS, COMMAS, ENDS)
    };
    let count = [0, 1, 1, 2, 2, 3, 4][r.below(7)];
    for at in 0..count {
        let names = if is_good || r.below(3) > 0 {
            &NAMES[..]
        } else {
            NO_NAMES
        };
        text += r.of(names);
        text += r.of(marks);
        text += r.of(VALUES);
        if at + 1 < count {
            text += r.of(commas);
        }
    }
    text + r.of(ends)
}

/// Calls `check` with each text of up to `most` pieces.
pub fn each(pieces: &[&str], most: usize, check: &mut dyn FnMut(&str)) {
    fn go_on(text: &mut String, pieces: &[&str], most: usize, check: &mut dyn FnMut(&str)) {
        check(text);
        if most == 0 {
            return;
        }
        let len = text.len();
        for piece in pieces {
            text.push_str(piece);
            go_on(text, pieces, most - 1, check);
            text.truncate(len);
        }
    }
    go_on(&mut String::new(), pieces, most, check);
}
