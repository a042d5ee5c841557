// Rendered from crates/rl_scan/src/checks.rt by tools/render, which erases contracts: change that file, and render again.
//! Checks the values of options, and the whole command line.

use crate::rattle_std::prelude::{format};
use crate::rl_scan::args::{Args, is_among};
use crate::rl_scan::failure::Failure;
use crate::rl_scan::ids::check_id;
use crate::rl_scan::literal::Literal;
use crate::rl_scan::modes::Mode;
use crate::rl_scan::options::{OPTIONS, OptionRow, Value, row_named};
use crate::rl_files::visible_text;
use crate::rattle_std::alloc::Allocator;

const TEXT_KINDS: [&str; 5] = ["Str", "ByteStr", "CStr", "Byte", "Char"];

pub(crate) fn list_contains(list: &str, word: &str) -> bool {
    list.split(',').any(|part| part.eq_ignore_ascii_case(word))
}

pub(crate) fn is_input(path: &str) -> bool {
    path == "-" || path == "/dev/stdin"
}

fn lists(text: &str, word: &str, in_any_case: bool) -> bool {
    for part in text.split(' ') {
        let listed = part.strip_suffix(',').unwrap_or(part);
        let is_equal = listed == word || in_any_case && listed.eq_ignore_ascii_case(word);
        if is_equal && listed != "or" {
            return true;
        }
    }
    false
}

pub(crate) fn number_in(value: &str) -> Option<usize> {
    if !value.as_bytes().iter().all(|b| b.is_ascii_digit()) {
        return None;
    }
    match value.parse::<usize>() {
        Ok(number) => Some(number),
        Err(_) => None,
    }
}

pub(crate) fn extension_in(value: &str) -> &str {
    value.strip_prefix('.').unwrap_or(value)
}

fn wrong_part<'a>(row: &OptionRow, value: &'a str) -> Option<&'a str> {
    let is_right = match row.value {
        Value::Word(words) => lists(words, value, false),
        Value::Kinds(kinds) => return value.split(',').find(|part| !lists(kinds, part, true)),
        Value::Number(_) => number_in(value).is_some(),
        Value::Integer(_) => Literal::parse(value).bare_integer().is_some(),
        Value::Extension(_) => {
            value != "." && !(value.contains(',') || value.contains('*') || value.contains('/'))
        }
        _ => true,
    };
    if is_right { None } else { Some(value) }
}

fn check_pattern<A: Allocator + Copy>(alloc: A, pattern: &str) -> Result<(), Failure<A>> {
    let shown = visible_text(alloc, pattern)?;
    if pattern.starts_with('!') || pattern.contains('[') || pattern.contains('\\') {
        return Err(Failure::Said(format!(in alloc;
            "invalid pattern '{shown}': --exclude supports *, ?, ** and /, but not [, \\ or ! at the start"
        )?));
    }
    if pattern.starts_with("./")
        || pattern.starts_with("../")
        || pattern == "/"
        || pattern.ends_with(' ')
    {
        return Err(Failure::Said(format!(in alloc;
            "the pattern '{shown}' of --exclude matches nothing: it is relative to a PATH, such as src or /src"
        )?));
    }
    Ok(())
}

fn check_rule<A: Allocator + Copy>(alloc: A, rule: &str) -> Result<(), Failure<A>> {
    if rule.contains('\n') || rule.contains(',') {
        let shown = visible_text(alloc, rule)?;
        return Err(Failure::Said(format!(in alloc;
            "the value '{shown}' of --rule is more than one rule: pass --rule for each"
        )?));
    }
    Ok(())
}

pub(crate) fn check_value<A: Allocator + Copy>(
    alloc: A,
    row: &OptionRow,
    value: &str,
) -> Result<(), Failure<A>> {
    let (name, expected) = (row.name, row.expected());
    if let Some(part) = wrong_part(row, value) {
        let shown = visible_text(alloc, part)?;
        return Err(Failure::Said(format!(in alloc;
            "unknown value '{shown}' of {name}: expected {expected}"
        )?));
    }
    if value.is_empty() && row.has_value() {
        return Err(Failure::Said(format!(in alloc; "the value of {name} is empty")?));
    }
    if matches!(row.value, Value::Id(_) | Value::Rule(_)) && row_named(value).is_some() {
        return Err(Failure::Said(format!(in alloc;
            "{name} needs a value before {value}: {expected}"
        )?));
    }
    match row.value {
        Value::Pattern(_) => check_pattern(alloc, value),
        Value::Rule(_) => check_rule(alloc, value),
        _ => Ok(()),
    }
}

fn vain_option<A: Allocator + Copy>(args: &Args<'_, A>, mode: Mode) -> Option<OptionRow> {
    for row in &OPTIONS {
        let is_vain = mode != Mode::Page && !mode.is_among(row.modes) && args.has(row.name);
        if is_vain && !(row.name == "--format" && args.form() == "text") {
            return Some(*row);
        }
    }
    None
}

fn contradiction<A: Allocator + Copy>(args: &Args<'_, A>) -> Option<&'static str> {
    let searches_no_text = match args.last("--only") {
        Some(list) => !TEXT_KINDS.iter().any(|kind| list_contains(list, kind)),
        None => false,
    };
    if args.has("--find") && searches_no_text {
        return Some(
            "-e, --find searches only Str, ByteStr, CStr, Byte and Char, and --only has none of these kinds",
        );
    }
    let prints_no_form = args.has("--files")
        || args.has("--count")
        || args.has("--files-with-matches");
    if args.form() != "text" && prints_no_form {
        return Some(
            "--json and --format json, github can't be used with -c, --count, -l, --files-with-matches, --files",
        );
    }
    if args.has("--stats") && args.has("--files") {
        return Some("--stats can't be used with --files, which reads none");
    }
    None
}

fn reads_input<A: Allocator + Copy>(args: &Args<'_, A>) -> bool {
    let mut is_read = args.paths.is_empty() && !args.has("--files-from");
    for path in args.paths.as_slice() {
        is_read = is_read || is_input(path);
    }
    for given in args.given.as_slice() {
        is_read = is_read || given.name == "--files-from" && is_input(given.value);
    }
    is_read
}

fn style_contradiction<A: Allocator + Copy>(args: &Args<'_, A>) -> Option<&'static str> {
    let style = args.last("--style")?;
    if is_input(style) && reads_input(args) {
        return Some(
            "--style - reads standard input, so pass a PATH or --files-from FILE other than -",
        );
    }
    if args.has("--rule") {
        return Some("--rule can't be used with --style");
    }
    None
}

pub(crate) fn check_command_line<A: Allocator + Copy>(
    alloc: A,
    args: &Args<'_, A>,
) -> Result<(), Failure<A>> {
    if let Some(words) = contradiction(args) {
        return Err(Failure::said(alloc, words));
    }
    let mode = args.mode();
    if let Some(row) = vain_option(args, mode) {
        let (name, words, hint) = (row.name, mode.words(), row.modes.hint);
        return Err(Failure::Said(format!(in alloc; "{name} has no effect {words}: {hint}")?));
    }
    if let Some(words) = style_contradiction(args) {
        return Err(Failure::said(alloc, words));
    }
    for given in args.given.as_slice() {
        if given.name == "--allow" {
            check_id(alloc, mode, given.value)?;
        }
    }
    Ok(())
}
