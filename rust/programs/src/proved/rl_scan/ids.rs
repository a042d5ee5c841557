// Rendered from crates/rl_scan/src/ids.rt by tools/render, which erases contracts: change that file, and render again.
//! The identifiers of findings, which `--allow` accepts.

use crate::rattle_std::prelude::{format};
use crate::rl_scan::failure::{Done, Failure};
use crate::rl_scan::hidden::hides;
use crate::rl_scan::modes::Mode;
use crate::rl_scan::style::is_near;
use crate::rl_files::visible_text;
use crate::rattle_std::alloc::{AllocError, Allocator};

#[rustfmt::skip]
const BAD_IDS: [&str; 38] = ["empty", "no-literal", "unfinished", "no-quote", "no-number", "unknown-escape", "unicode-escape-in-bytes", "no-hexadecimal-digit", "no-brace",
    "empty-braces", "too-many-digits", "past-ascii", "past-unicode", "surrogate", "nul", "not-ascii", "must-escape", "no-character", "two-characters", "no-exponent-digit",
    "bad-suffix", "integer-too-large", "minus", "too-many-hashes", "carriage-return", "early-quote", "extra-hash", "underscore-suffix", "no-digits", "digit-of-base",
    "based-float", "no-fraction-digit", "reserved-prefix", "quoted-suffix", "unknown-suffix", "float-suffix", "out-of-range", "stray-character"];

#[rustfmt::skip]
const CHARACTER_IDS: [&str; 5] = ["bidirectional-character", "joiner", "variation-selector", "control-character", "invisible-character"];

fn number_of(id: &str) -> Option<u32> {
    let digits = id.strip_prefix("U+")?;
    let count = digits.len();
    if count < 4 || count > 6 || !digits.as_bytes().iter().all(|b| b.is_ascii_hexdigit()) {
        return None;
    }
    u32::from_str_radix(digits, 16).ok()
}

pub(crate) fn character_of(id: &str) -> Option<char> {
    char::from_u32(number_of(id)?)
}

fn unknown_id<A: Allocator + Copy>(
    alloc: A,
    ids: &[&'static str],
    id: &str,
    expected: &str,
) -> Result<Failure<A>, AllocError> {
    let shown = visible_text(alloc, id)?;
    let mut line = format!(in alloc; "unknown id '{shown}' of --allow: ")?;
    match ids.iter().find(|known| is_near(id, known)) {
        Some(name) => write!(line, "did you mean '{name}'?")?,
        None => line.push_str(expected)?,
    }
    Ok(Failure::Said(line))
}

fn check_bad_id<A: Allocator + Copy>(alloc: A, id: &str) -> Done<A> {
    if BAD_IDS.contains(&id) {
        return Ok(());
    }
    if id == "unclosed-quote" || id == "unclosed-comment" {
        return Err(Failure::Said(format!(in alloc;
            "--allow can't leave out {id}: the rest of the file isn't read"
        )?));
    }
    let expected = "expected an id that --bad --json prints, such as unknown-suffix";
    Err(unknown_id(alloc, &BAD_IDS, id, expected)?)
}

fn check_character_id<A: Allocator + Copy>(alloc: A, id: &str) -> Done<A> {
    if CHARACTER_IDS.contains(&id) {
        return Ok(());
    }
    if number_of(id).is_some() {
        return match character_of(id) {
            Some(c) if hides('\0', c, "") => Ok(()),
            _ => Err(unknown_id(alloc, &[], id, "--invisible reports no such character")?),
        };
    }
    let expected =
        "expected bidirectional-character, joiner, variation-selector, control-character, invisible-character or U+XXXX";
    Err(unknown_id(alloc, &CHARACTER_IDS, id, expected)?)
}

pub(crate) fn check_id<A: Allocator + Copy>(alloc: A, mode: Mode, id: &str) -> Done<A> {
    match mode {
        Mode::Bad => check_bad_id(alloc, id),
        Mode::Invisible => check_character_id(alloc, id),
        _ => Ok(()),
    }
}
