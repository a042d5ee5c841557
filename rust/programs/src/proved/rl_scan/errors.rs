// Rendered from crates/rl_scan/src/errors.rt by tools/render, which erases contracts: change that file, and render again.
//! Finds the literals of a source that Rust rejects, and what ends the source early.

use crate::rl_scan::failure::Failure;
use crate::rl_scan::finding::{Fault, Finding, Place};
use crate::rl_scan::follower::Follower;
use crate::rl_scan::job::Job;
use crate::rl_scan::print::Page;
use crate::rl_flaws::{
    Edition, Flaws, InvalidPiece, TypeError, first_reserving_edition, is_flaw_of_unit,
    may_be_negated, type_error_of,
};
use crate::rl_lexer::{LexError, LexKind, SourceForm, SourceToken, Sources};
use crate::rl_strict::limits::flaw_if_above_128_bits;
use crate::rl_strict::{LineEnds, Reading, read};
use crate::rl_syntax::Kind;
use crate::rl_syntax::text::begins;
use crate::rattle_std::alloc::Allocator;
use crate::rattle_std::io::Write;

pub(crate) fn both(a: bool, b: bool) -> bool {
    a && b
}

#[inline(always)]
pub(crate) fn next_token<'t>(tokens: &mut Sources<'t>, all: bool) -> Option<SourceToken<'t>> {
    if all {
        tokens.next()
    } else {
        tokens.next_literal()
    }
}

fn report_fault<A: Allocator + Copy, W: Write>(
    page: &mut Page<'_, '_, A, W>,
    job: Job<'_>,
    place: Place,
    fault: Fault<'_>,
) -> Result<bool, Failure<A>> {
    let allowed = job.allows_error(fault.id);
    page.report_finding(place, Finding::Error(fault))?;
    Ok(allowed)
}

fn end_id(kind: LexKind) -> &'static str {
    match kind {
        LexKind::UnclosedQuote => "unclosed-quote",
        LexKind::UnclosedComment => "unclosed-comment",
        _ => "stray-character",
    }
}

fn report_lex_error<A: Allocator + Copy, W: Write>(
    page: &mut Page<'_, '_, A, W>,
    job: Job<'_>,
    kind: LexKind,
    place: Place,
    piece: &str,
) -> Result<bool, Failure<A>> {
    let fault = Fault {
        id: end_id(kind),
        message: kind.message(),
        piece,
        literal: None,
    };
    report_fault(page, job, place, fault)
}

pub(crate) fn report_end<A: Allocator + Copy, W: Write>(
    page: &mut Page<'_, '_, A, W>,
    job: Job<'_>,
    error: LexError,
) -> Result<bool, Failure<A>> {
    let (lo, hi) = (error.at, error.at);
    report_lex_error(page, job, error.kind, Place { lo, hi }, "")
}

fn is_of_word(c: char) -> bool {
    c.is_ascii_alphanumeric() || c == '_'
}

fn prefix_start(before: &str, text: &str) -> usize {
    let front = before.trim_end_matches('#');
    match first_reserving_edition(before, text) {
        Some(Edition::E2021) => front.trim_end_matches(is_of_word).len(),
        _ => front.len(),
    }
}

fn type_error_at(
    before: &str,
    text: &str,
    kind: Kind,
    magnitude: u128,
    suffix_at: usize,
) -> Option<TypeError> {
    let (suffix, negated) = (&text[suffix_at..], may_be_negated(before));
    type_error_of(kind, text, magnitude, suffix, negated)
}

#[inline(always)]
fn has_no_suffix(text: &str, kind: Kind, at: usize) -> bool {
    at == text.len() && !matches!(kind, Kind::Float)
}

#[inline(always)]
fn is_bare(text: &str, reading: &Reading) -> bool {
    match reading {
        Reading::Text(kind, body) => has_no_suffix(text, *kind, body.suffix_at),
        Reading::Unit(kind, body, _) => has_no_suffix(text, *kind, body.suffix_at),
        Reading::Integer(Some(_), at) => has_no_suffix(text, Kind::Int, *at),
        _ => false,
    }
}

#[inline(always)]
fn type_error_in(before: &str, text: &str, reading: &Reading) -> Option<TypeError> {
    match reading {
        Reading::Text(kind, body) => type_error_at(before, text, *kind, 0, body.suffix_at),
        Reading::Unit(kind, body, _) => type_error_at(before, text, *kind, 0, body.suffix_at),
        Reading::Integer(Some(m), at) => type_error_at(before, text, Kind::Int, *m, *at),
        Reading::Float(at) => type_error_at(before, text, Kind::Float, 0, *at),
        Reading::Integer(None, _) | Reading::Truth(_) => None,
    }
}

fn type_words(
    before: &str,
    text: &str,
    reading: &Reading,
) -> Option<(Place, &'static str, &'static str)> {
    if let Some(flaw) = flaw_if_above_128_bits(text, *reading) {
        let (lo, hi) = (flaw.lo, flaw.hi);
        return Some((Place { lo, hi }, flaw.kind.id(), flaw.kind.message()));
    }
    let (lo, hi) = (0, text.len());
    match type_error_in(before, text, reading) {
        Some(error) => Some((Place { lo, hi }, error.id(), error.message())),
        None => None,
    }
}

#[inline(always)]
fn report_type<'t, A: Allocator + Copy, W: Write>(
    page: &mut Page<'_, '_, A, W>,
    follower: &mut Follower<'t>,
    job: Job<'_>,
    token: SourceToken<'t>,
    reading: &Reading,
) -> Result<bool, Failure<A>> {
    let Some(before) = follower.text_before(token.lo) else {
        return Ok(false);
    };
    let Some((place, id, message)) = type_words(before, token.text, reading) else {
        return Ok(true);
    };
    if job.follows && follower.is_in_call_at(token.lo) {
        return Ok(true);
    }
    let fault = Fault {
        id,
        message,
        piece: token.text,
        literal: Some(token.text),
    };
    report_fault(page, job, place.after(token.lo), fault)
}

#[inline(always)]
fn report_prefix<A: Allocator + Copy, W: Write>(
    page: &mut Page<'_, '_, A, W>,
    follower: &Follower<'_>,
    job: Job<'_>,
    token: SourceToken<'_>,
) -> Result<Option<bool>, Failure<A>> {
    let source = page.source;
    let last = source.as_bytes().get(token.lo.wrapping_sub(1));
    if !last.is_some_and(|b| matches!(*b, b'#' | b'_') || b.is_ascii_alphanumeric()) {
        return Ok(None);
    }
    let Some(before) = follower.text_before(token.lo) else {
        return Ok(Some(false));
    };
    if !job.edition.reserves(before, token.text) {
        return Ok(None);
    }
    let (lo, hi) = (prefix_start(before, token.text), token.hi);
    let piece = source.get(lo..hi).unwrap_or(token.text);
    let fault = Fault {
        id: "reserved-prefix",
        message: "reserved prefix",
        piece,
        literal: Some(piece),
    };
    let is_allowed = report_fault(page, job, Place { lo, hi }, fault)?;
    Ok(Some(is_allowed))
}

fn report_flaw<A: Allocator + Copy, W: Write>(
    page: &mut Page<'_, '_, A, W>,
    job: Job<'_>,
    token: SourceToken<'_>,
    bad: InvalidPiece,
) -> Result<bool, Failure<A>> {
    let (text, flaw) = (token.text, bad.flaw);
    let piece = if is_flaw_of_unit(flaw.kind) {
        text.get(flaw.from..bad.end).unwrap_or(text)
    } else {
        text
    };
    let (lo, hi) = (flaw.lo, flaw.hi);
    let fault = Fault {
        id: flaw.kind.id(),
        message: flaw.kind.message(),
        piece,
        literal: Some(text),
    };
    report_fault(page, job, Place { lo, hi }.after(token.lo), fault)
}

fn report_later_flaws<A: Allocator + Copy, W: Write>(
    page: &mut Page<'_, '_, A, W>,
    job: Job<'_>,
    token: SourceToken<'_>,
    mut flaws: Flaws<'_>,
) -> Result<bool, Failure<A>> {
    let mut are_allowed = true;
    for _ in 0..u64::MAX {
        let Some(bad) = flaws.next() else {
            break;
        };
        are_allowed = both(report_flaw(page, job, token, bad)?, are_allowed);
    }
    Ok(are_allowed)
}

fn is_literal_since_2021(text: &str) -> bool {
    begins(text, "c\"") || begins(text, "cr") || begins(text, "'r#")
}

#[inline(always)]
fn report_literal<'t, A: Allocator + Copy, W: Write>(
    page: &mut Page<'_, '_, A, W>,
    follower: &mut Follower<'t>,
    job: Job<'_>,
    token: SourceToken<'t>,
) -> Result<bool, Failure<A>> {
    if job.edition.year() < 2021 && is_literal_since_2021(token.text) {
        return Ok(true);
    }
    match read(token.text, LineEnds::File, false) {
        Ok(reading) => {
            if let Some(is_allowed) = report_prefix(page, follower, job, token)? {
                return Ok(is_allowed);
            }
            if job.any_suffix {
                return Ok(true);
            }
            if is_bare(token.text, &reading) {
                return Ok(true);
            }
            report_type(page, follower, job, token, &reading)
        }
        Err(flaw) => {
            let (first, later) = Flaws::after(token.text, LineEnds::File, flaw);
            let is_allowed = report_flaw(page, job, token, first)?;
            Ok(both(is_allowed, report_later_flaws(page, job, token, later)?))
        }
    }
}

fn report_token<'t, A: Allocator + Copy, W: Write>(
    page: &mut Page<'_, '_, A, W>,
    follower: &mut Follower<'t>,
    job: Job<'_>,
    token: SourceToken<'t>,
) -> Result<bool, Failure<A>> {
    if job.strays && !token.is_literal() {
        if !matches!(token.form, SourceForm::Stray) {
            return Ok(true);
        }
        let (kind, lo, hi) = (LexKind::StrayCharacter, token.lo, token.hi);
        return report_lex_error(page, job, kind, Place { lo, hi }, token.text);
    }
    report_literal(page, follower, job, token)
}

pub(crate) fn report_errors<A: Allocator + Copy, W: Write>(
    page: &mut Page<'_, '_, A, W>,
    job: Job<'_>,
) -> Result<bool, Failure<A>> {
    let mut tokens = Sources::new(page.source);
    let mut follower = Follower::new(page.source);
    let mut are_accepted = true;
    while let Some(token) = next_token(&mut tokens, job.strays) {
        let is_accepted = report_token(page, &mut follower, job, token)?;
        are_accepted = both(is_accepted, are_accepted);
    }
    match tokens.error() {
        Some(error) => Ok(both(report_end(page, job, error)?, are_accepted)),
        None => Ok(are_accepted),
    }
}
