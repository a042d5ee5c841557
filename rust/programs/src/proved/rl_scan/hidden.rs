// Rendered from crates/rl_scan/src/hidden.rt by tools/render, which erases contracts: change that file, and render again.
//! Finds the invisible and bidirectional characters of a source.

use crate::rl_scan::failure::{Done, Failure};
use crate::rl_scan::finding::{Finding, Place};
use crate::rl_scan::print::Page;
use crate::rl_scan::widths::{is_variation_selector, takes_variation_selector};
use crate::rl_files::is_control_invisible_or_bidi;
use crate::rattle_std::alloc::Allocator;
use crate::rattle_std::io::Write;

const BLOCK: usize = 64;

pub(crate) fn bidi_name(c: char) -> &'static str {
    match c {
        '\u{61c}' => " ARABIC LETTER MARK",
        '\u{200e}' => " LEFT-TO-RIGHT MARK",
        '\u{200f}' => " RIGHT-TO-LEFT MARK",
        '\u{202a}' => " LEFT-TO-RIGHT EMBEDDING",
        '\u{202b}' => " RIGHT-TO-LEFT EMBEDDING",
        '\u{202c}' => " POP DIRECTIONAL FORMATTING",
        '\u{202d}' => " LEFT-TO-RIGHT OVERRIDE",
        '\u{202e}' => " RIGHT-TO-LEFT OVERRIDE",
        '\u{2066}' => " LEFT-TO-RIGHT ISOLATE",
        '\u{2067}' => " RIGHT-TO-LEFT ISOLATE",
        '\u{2068}' => " FIRST STRONG ISOLATE",
        '\u{2069}' => " POP DIRECTIONAL ISOLATE",
        _ => "",
    }
}

pub(crate) fn character_id(c: char) -> &'static str {
    if !bidi_name(c).is_empty() {
        "bidirectional-character"
    } else if matches!(c, '\u{200c}'..='\u{200d}') {
        "joiner"
    } else if is_variation_selector(c) {
        "variation-selector"
    } else if c.is_control() {
        "control-character"
    } else {
        "invisible-character"
    }
}

pub(crate) fn hides(previous: char, c: char, after: &str) -> bool {
    if is_variation_selector(c) {
        return !takes_variation_selector(previous, c);
    }
    let is_layout = matches!(c, '\t' | '\n' | '\u{c}') || c == '\r' && after.starts_with('\n');
    !is_layout && is_control_invisible_or_bidi(c)
}

fn are_visible(bytes: &[u8]) -> bool {
    let mut is_odd = false;
    for byte in bytes {
        let is_visible = (*byte >= b' ') & (*byte <= b'~') | (*byte == b'\t') | (*byte == b'\n');
        is_odd = is_odd | !is_visible;
    }
    !is_odd
}

fn report_in<A: Allocator + Copy, W: Write>(
    page: &mut Page<'_, '_, A, W>,
    text: &str,
    start: usize,
    len: usize,
    previous: char,
) -> Result<(usize, char), Failure<A>> {
    let mut end = 0_usize;
    let mut last = previous;
    for c in text.chars() {
        if end >= len {
            break;
        }
        let lo = end;
        end = lo.saturating_add(c.len_utf8());
        if !matches!(c, ' '..='~' | '\n' | '\t') && hides(last, c, text.get(end..).unwrap_or("")) {
            let (lo, hi) = (start.saturating_add(lo), start.saturating_add(end));
            page.report_finding(Place { lo, hi }, Finding::Hidden(c))?;
        }
        last = c;
    }
    Ok((end, last))
}

pub(crate) fn report_hidden<A: Allocator + Copy, W: Write>(
    page: &mut Page<'_, '_, A, W>,
) -> Done<A> {
    let source = page.source;
    let mut at = if source.starts_with('\u{feff}') { 3 } else { 0 };
    let mut previous = '\0';
    for _ in 0..source.len() {
        let text = source.get(at..).unwrap_or("");
        let block = text.as_bytes().get(..BLOCK).unwrap_or(text.as_bytes());
        let Some(last) = block.last() else {
            break;
        };
        if are_visible(block) {
            at = at.saturating_add(block.len());
            previous = char::from(*last);
        } else {
            let (len, c) = report_in(page, text, at, block.len(), previous)?;
            at = at.saturating_add(len);
            previous = c;
        }
    }
    Ok(())
}
