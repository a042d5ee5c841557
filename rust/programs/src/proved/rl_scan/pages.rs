// Rendered from crates/rl_scan/src/pages.rt by tools/render, which erases contracts: change that file, and render again.
//! The texts of `--help`, `--version` and `--rules`.

use crate::rattle_std::prelude::{String};
use crate::rl_scan::args::Args;
use crate::rl_scan::generated::generated_text;
use crate::rl_scan::options::OPTIONS;
use crate::rattle_std::alloc::{AllocError, Allocator};

const INTRODUCTION: &str = "usage: rl_scan [OPTIONS] [PATH..]
Prints the literals of Rust source files, or the errors in them.

A PATH is a file or a directory. In a directory, rl_scan reads the *.rs files,
sorted by their paths. It skips hidden files and directories, and `target`
beside a Cargo.toml, and doesn't follow symbolic links. `-` is standard input.
Without a PATH and --files-from, rl_scan reads standard input if that is a file,
a pipe or a socket. Otherwise, or with --files, it reads the current directory.";

const CLOSING: &str = "

Lines:
  PATH:LINE:COLUMN: KIND VALUE SUFFIX
  PATH:LINE:COLUMN: error: MESSAGE: PIECE
  PATH:LINE:COLUMN: U+202E RIGHT-TO-LEFT OVERRIDE
  PATH:LINE:COLUMN: OLD -> NEW [RULE, ..]
  LO..HI KIND VALUE SUFFIX

Status:
  0  success
  1  --bad or --invisible found something; --find found nothing; --check or
     --diff found a change
  2  an error: invalid arguments, no file to read, or an error of a file: it
     can't be read, it has an unclosed quote or comment (except with --bad and
     --invisible), or --fix, --check or --diff rejects it; the other files are
     still read

Examples:
  rl_scan --bad src
  rl_scan -wie todo src tests
  rl_scan --check src
  git ls-files -z '*.rs' | rl_scan --invisible --files-from -
";

const VERSION: &str = "rl_scan 0.2.0\n";

const RULES_PAGE: &str =
    r###"The rules of a style, for lines NAME = VALUE of the file of --style, and for
--rule NAME=VALUE. A rule that isn't set is off. Without --style and --rule,
three rules are on: exponent_letter = "lower", drop_quote_escapes and
fewest_hashes. Below each rule is an example.

hex_digits = "lower" or "upper"
    Write the digits of hexadecimal integers in this case.
    hex_digits = "lower": 0xFF -> 0xff

drop_underscores = true or false
    Drop the underscores in numbers.
    drop_underscores = true: 1_000 -> 1000

drop_leading_zeros = true or false
    Drop the leading zeros of decimal integers, except of those that may be
    meant as octal, such as 0123.
    drop_leading_zeros = true: 089 -> 89

suffix_separator = "" or "_"
    Write nothing, or an underscore, between a number and its suffix.
    suffix_separator = "_": 1u8 -> 1_u8

binary_groups = NUM
    Divide the digits of binary integers into groups of NUM digits.
    binary_groups = 8: 0b1111111100000000 -> 0b11111111_00000000

octal_groups = NUM
    Divide the digits of octal integers into groups of NUM digits.
    octal_groups = 3: 0o777777 -> 0o777_777

decimal_groups = NUM
    Divide the digits of decimal integers and floats into groups of NUM digits.
    decimal_groups = 3: 1000000 -> 1_000_000

hexadecimal_groups = NUM
    Divide the digits of hexadecimal integers into groups of NUM digits.
    hexadecimal_groups = 4: 0xdeadbeef -> 0xdead_beef

min_digits = NUM
    Divide only numbers of NUM digits or more into groups.
    min_digits = 5, decimal_groups = 3: 1_000 -> 1000

float_zero = true or false
    Write a zero after a dot at the end of a float.
    float_zero = true: 1. -> 1.0

exponent_letter = "lower" or "upper"
    Write the letter before the exponent of a float in this case.
    exponent_letter = "lower": 1E5 -> 1e5

drop_exponent_plus = true or false
    Drop the plus of the exponent of a float.
    drop_exponent_plus = true: 1e+5 -> 1e5

escape_digits = "lower" or "upper"
    Write the hexadecimal digits of escapes in this case.
    escape_digits = "lower": b"\xE9" -> b"\xe9"

fewest_escape_digits = true or false
    Drop the leading zeros and the underscores in \u{..} escapes.
    fewest_escape_digits = true: "\u{00e9}" -> "\u{e9}"

drop_ascii_escapes = true or false
    Write visible ASCII characters in place of their numeric escapes.
    drop_ascii_escapes = true: "\x41" -> "A"

named_escapes = true or false
    Write \n, \r, \t and \0 in place of the numeric escapes of LF, CR, tab
    and NUL.
    named_escapes = true: "\x0a" -> "\n"

drop_quote_escapes = true or false
    Drop the backslash before a quote that doesn't close the literal.
    drop_quote_escapes = true: "it\'s" -> "it's"

fewest_hashes = true or false
    Write raw strings with the fewest hashes.
    fewest_hashes = true: r##"b"## -> r"b"

drop_raw = true or false
    Drop the r and the hashes of raw strings that contain no backslash and no
    quote.
    drop_raw = true: r"a" -> "a"

escape_invisible = true or false
    Write escapes in place of invisible and bidirectional characters.
    escape_invisible = true: "<U+200B>" -> "\u{200b}"
"###;

fn help_page<A: Allocator>(alloc: A) -> Result<String<A>, AllocError> {
    let mut page = String::from_str(alloc, INTRODUCTION)?;
    for row in &OPTIONS {
        page.push_str(row.help)?;
    }
    page.push_str(CLOSING)?;
    Ok(page)
}

pub(crate) fn page_of<A: Allocator + Copy>(
    alloc: A,
    args: &Args<'_, A>,
) -> Result<String<A>, AllocError> {
    if args.has("--help") {
        help_page(alloc)
    } else if args.has("--version") {
        String::from_str(alloc, VERSION)
    } else if args.has("--rules") {
        String::from_str(alloc, RULES_PAGE)
    } else {
        String::from_str(alloc, generated_text(args.last("--generate").unwrap_or("")))
    }
}
