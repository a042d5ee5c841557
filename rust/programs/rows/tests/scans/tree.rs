//! A small directory in memory, with files and directories that can't be read or written.

use navyspindle_programs::rattle_std::alloc::Allocator;
use navyspindle_programs::rattle_std::vec::Vec;
use navyspindle_programs::rl_files::{PathError, Tree, Unwritable};

/// A directory in memory: standard input, files and directories, some of which can't be read.
#[derive(Clone, Copy)]
pub struct Sample;

/// Literals that Rust rejects, one in each line, and a line of literals that it accepts.
const BAD: &str = "0x
0b102
0o9
1e
1.5e
0b1e3
'''
'\t'
b'\u{e9}'
\"\\q\"
340282366920938463463374607431768211456
\"a\"_
0x1F 'a' 1u9 1. r\"a\" \"a\"b true
";

/// Literals whose texts and values need escapes in JSON, one of them with a surrogate pair. Also byte literals and numbers.
const JSON: &str = "\"\\u{e0041}\u{e0041}\u{202e}\x7f\\0\\x1f/é😀\" '\\u{1f600}' '\"'
'\\\\' c\"\\xff\\\"\" b'\\xff' b\"\\\\a\" b\"\" \"\"
1_000.5e-3_f64 0b1111_0000 340282366920938463463374607431768211455 \"a\"b false r\"\\ \t\" \"\\q\"";

/// Literals whose values contain `ab`, written in several ways, and literals whose values don't.
const HELD: &str = "\"\\u{61}b\" b\"ab\" c\"\\x61b\" 'a' b'a'
\"x\\
   ab\" r#\"ab\"# \"äab\" \"\\\\u{61}\" // \"ab\"
\"ba\" 'b'";

/// Literals whose values contain `ab` in lower or upper case, as a whole word or as a part of a word.
const WORDS: &str =
    "\"ab\" \"AB\" \"cab aB\" \"abc\" \"ab_\" \"éab ab.\" \"-ab-\" b\"ab\\xff ab\\n\"
\"abab ab\" \"é e é\" '-' \"a-b\" \"3ab a b\" r\"\\ab\"";

/// Invisible and bidirectional characters in literals, comments, identifiers and between tokens. Also text that isn't reported:
/// escapes, tabs, a form feed, CR LF.
const HIDES: &str = "\u{feff}\"a\\u{202e}b\" \"a\u{202e}b\"
'\u{200b}' r\"ä\u{feff}\" b\"\u{202e}\" // \"\u{202e}\"
\"a\tb\" 1 \"\u{fe0f}\" \"\u{1bca3}\"\r
\u{c}let a\u{200b}b\u{ad}; \"\x1b[8m\" // a\rb\x07\x00\u{85}\u{2028}\r";

/// Variation selectors after characters that take them, and after others: a selector, an emoji, a letter, a mathematical symbol, an
/// ideograph. Also a joiner between emoji.
const SELECTORS: &str = "\u{fe0f}\u{263a}\u{fe0e}\u{fe0f}1\u{fe0f}\u{20e3}a\u{fe00}
\u{2229}\u{fe00}\u{2229}\u{fe0f}\u{845b}\u{e0100}\u{845b}\u{fe02}\u{263a}\u{e0100}\u{845b}\u{fe03}\u{e01ef}
\u{1f469}\u{200d}\u{2764}\u{fe0f}\u{1f680}\u{fe0f}";

/// The published examples of Trojan Source (CVE-2021-42574) for Rust. In one a comment is displayed as code, and in the other the
/// end of a string is displayed elsewhere.
const TROJAN: &str = "fn main() {
    let is_admin = false;
    /*\u{202e} } \u{2066}if is_admin\u{2069} \u{2066} begin admins only */
        println!(\"You are an admin.\");
    /* end admins only \u{202e} { \u{2066}*/
    let access_level = \"user\";
    if access_level != \"user\u{202e} \u{2066}// Check if admin\u{2069} \u{2066}\" {
        println!(\"You are an admin.\");
    }
}
// \u{61c}\u{200e}\u{200f}\u{202a}\u{202b}\u{202c}\u{202d}\u{2067}\u{2068} \"";

/// A byte order mark at the start, which has no column, and a second one, which has a column.
const MARKED: &str = "\u{feff}\"a\" '\\q' 1\n\u{feff}2";

/// Integers above 128 bits. Two are floats by their suffix.
const LARGE: &str = "340282366920938463463374607431768211456f64
-340282366920938463463374607431768211456_f32
340282366920938463463374607431768211456f16
0x340282366920938463463374607431768211456f64";

/// Literals with several flaws, one of them across lines that end with CR LF.
const MANY: &str = "\"\\xff \\q\\u{1234567}\" b\"é\\u{41}\"\r\n\"\\q\r\n\\xg é\\z\"";

/// Suffixes that Rust accepts, suffixes that it accepts only as macro input, and values in and out of their types' ranges.
const TYPED: &str = "1u8 256u8 -128i8 129i8 1u9
\"a\"x 'b'y b\"c\"d r\"e\"u8
1.0u8 0b1f32 1e5f64 1_f32 0xFFi8 1f16 true";

/// Identifiers and hashes directly before quotes, some of them reserved. Also the least number of a type, with and without a minus.
const BEFORE: &str = "f\"a\" c'b' #\"c\"# 1u8\"d\" 128i8 -128i8
 -(128i8) /**/ 128i8 5 - 128i8";

/// An identifier and hashes, and hashes after a number, directly before quotes.
const PREFIXED: &str = "é x_9##\"é\"## 1#\"c\"";

/// Stray characters, one of them invisible, a literal and an unclosed quote.
const STRAYS: &str = "a \\ 1u9 `\u{200b}`\n\t😀 \"b";

/// Literals that the default style rewrites, one of them in a macro call, and a field.
const FIXED: &str = "f(1., \"it\\'s\"); m!(1E5);\nt.0 1E5f32 r##\"a\"##\n";

/// Literals with invisible characters, control characters and line ends. One literal has an escape that the default style drops.
const INVISIBLE: &str = "\"\u{200b}\x1b\té\" \"it\\'s\u{e0001}\\u{200b}\na\" 'x'\n";

/// Texts that a runner of GitHub would take for commands: `::` at the start of a line, and `##[`.
const COMMANDS: &str = "::x \"##[a]\" 1u9\n\t::y '#', \"##[b]\"q\n";

/// Files that can't be rewritten.
pub const UNWRITABLE: [Unwritable<'static>; 2] = [
    Unwritable {
        path: "fix/full.rs",
        why: PathError::NoRoom,
    },
    Unwritable {
        path: "fix/other.rs",
        why: PathError::Changed,
    },
];

/// Returns the contents of the file at the path, or `None` if it isn't a text file.
fn text_at(path: &str) -> Option<&'static str> {
    match path {
        "-" => Some("f(\"a\\n\", '\\q', 0xFF_u8)"),
        "./a.rs" => Some("let x = 1;\n\"a b\"q true"),
        "./b/c.rs" => Some("2 '\\u{d800}' \"\\u{202e}\" \""),
        "./t\n.rs" => Some("3.5"),
        "./none.rs" => Some("fn f() {}"),
        "eq.rs" => Some("\"a=b\" '='"),
        "alone" => Some("b'é' /*"),
        "bad.rs" => Some(BAD),
        "crlf.rs" => Some("\"a\r\nb\" \"a\r\n\\q\" \"c\r\nd\re\" \"\\\r\n x\""),
        "held" => Some(HELD),
        "words" => Some(WORDS),
        "json" => Some(JSON),
        "large" => Some(LARGE),
        "many" => Some(MANY),
        "typed" => Some(TYPED),
        "before" | "./before" => Some(BEFORE),
        "named/a.rs" => Some("1"),
        "prefixed" => Some(PREFIXED),
        "strays" => Some(STRAYS),
        "hides" => Some(HIDES),
        "selectors" => Some(SELECTORS),
        "trojan.rs" => Some(TROJAN),
        "marked" => Some(MARKED),
        "marks" => Some("\u{feff}\u{feff}1"),
        "./.git/x.rs" => Some("4"),
        "./target/x.rs" => Some("5"),
        "package/.hidden/x.rs" => Some("6"),
        "package/src/target/x.rs" => Some("7"),
        "package/target/x.rs" => Some("8"),
        "package/src/.rs" => Some("9"),
        "./x.txt" => Some("10"),
        "globs/a.rs" | "globs/x1.rs" | "globs/b.rs" | "globs/gen/a.rs" => Some("1"),
        "globs/b/a.rs" | "globs/b/gen.rs" | "globs/b/deep/x12.rs" => Some("2"),
        "globs/b/deep/gen/a.rs" => Some("3"),
        "list" => Some("\n./a.rs\n\nglobs/gen\nmissing\n"),
        "list0" => Some("./a.rs\0\0./t\n.rs\0none"),
        "list/marked" => Some("\u{feff}./a.rs\n\u{feff}none\n"),
        "list/input" => Some("./none.rs\n-\n"),
        "empty" => Some(""),
        "fix/a.rs" => Some(FIXED),
        "fix/bad.rs" => Some("1. 0b12 \""),
        "fix/full.rs" | "fix/other.rs" | "./fix/other.rs" | ".//other.rs" => Some("1E5\n"),
        "commands" => Some(COMMANDS),
        "::p/a.rs" => Some("1u9"),
        "invisible.rs" => Some(INVISIBLE),
        "fix/none.rs" => Some("1.0 \"it's\"\n"),
        "fix/script.rs" => Some("#!/bin/x\n1E5\n"),
        "fix/space.rs" => Some("\u{feff}#! [allow(x)]\n1E5\n"),
        "fix/attr.rs" => Some("\u{feff}#![allow(x)]\n1E5\n"),
        "fix/badscript.rs" => Some("#!/bin/x\n0b12\n"),
        "style" => Some("// raw strings\ndrop_raw = true\n"),
        "badstyle" => Some("drop_raw = true\nhex = 1\n"),
        "style/near" => Some("// rules\n\ndrop_rwa = true\n"),
        "style/far" => Some("quotes = 1"),
        "style/value" => Some("float_zero = true, hex_digits = \"Lower\"\n"),
        "style/twice" => Some("drop_raw = true\r\ndrop_raw = true\r\n"),
        "style/mark" => Some("\n/*\n*/ drop_raw true\n"),
        "style/marked" => Some("\u{feff}drop_raw = true\n"),
        "style/twomarks" => Some("\u{feff}\n\u{feff}drop_raw = true\n"),
        "style/invisible" => Some("escape_invisible = true\n"),
        "style/number" => Some("drop_raw = true\n1 = true\n"),
        _ => None,
    }
}

/// Returns the contents of the file at the path, or an error.
fn bytes_at(path: &str) -> Result<&'static [u8], PathError> {
    match path {
        "./b.rs" => Err(PathError::ReadFailed),
        "long.rs" => Err(PathError::TooLong),
        "./n.rs" => Ok(b"1 \"a\xff\"".as_slice()),
        "listff" => Ok(b"./a.rs\n\xff".as_slice()),
        "list/fe" => Ok(b"\xef\xbb\xbfb\\\xe9 \x7f.rs\0\xc3\xa9\0\0./a.rs\0\xc3".as_slice()),
        "list/ff" => Ok(b"\xff\n".as_slice()),
        _ => match text_at(path) {
            Some(text) => Ok(text.as_bytes()),
            None => Err(PathError::NotFound),
        },
    }
}

/// Returns the names in the directory at the path, separated by `|`.
fn names_at(path: &str) -> Result<&'static [u8], PathError> {
    Ok(match path {
        "." => {
            b"n.rs|b/|t\n.rs|b.rs|Cargo.toml|x.txt|.git/|target/|none.rs|a.rs|locked/|!\xe9|targets/"
        }
        "./b/" => b"c.rs",
        "./.git/" | "./target/" => b"x.rs",
        "named" => b"f.1\xe9|d\xe9.txt|.c\xe9.rs|b\xe9.rs|.g\xe9|a.rs|e\xe9",
        "\u{e9}/d" => b"\x7f\\\xff.rs|\xc3\xa9.txt",
        "package" => b"target/|src/|Cargo.toml|.hidden/",
        "package/src/" => b"target/|.rs|x.rs.in",
        "package/target/" | "package/src/target/" | "package/.hidden/" => b"x.rs",
        "./targets/" => b"none",
        "globs" => b"x1.rs|gen/|b/|b.rs|a.rs",
        "globs/b/" => b"gen.rs|deep/|a.rs",
        "globs/b/deep/" => b"x12.rs|gen/",
        "globs/gen" | "globs/gen/" | "globs/b/deep/gen/" => b"a.rs",
        "fix" => b"script.rs|other.rs|none.rs|full.rs|bad.rs|a.rs",
        "./locked/" => return Err(PathError::PermissionDenied),
        _ => return Err(PathError::NotADirectory),
    })
}

impl Tree for Sample {
    fn bytes<A: Allocator>(&self, alloc: A, path: &str) -> Result<Vec<u8, A>, PathError> {
        Vec::from_slice(alloc, bytes_at(path)?).map_err(|_| PathError::OutOfMemory)
    }

    fn names<A: Allocator + Copy>(
        &self,
        alloc: A,
        path: &str,
    ) -> Result<Vec<Vec<u8, A>, A>, PathError> {
        let mut names = Vec::new(alloc);
        for name in names_at(path)?.split(|byte| *byte == b'|') {
            names
                .push(Vec::from_slice(alloc, name).map_err(|_| PathError::OutOfMemory)?)
                .map_err(|_| PathError::OutOfMemory)?;
        }
        Ok(names)
    }
}
