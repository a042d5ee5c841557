// Rendered from crates/rl_scan/src/rewriting.rt by tools/render, which erases contracts: change that file, and render again.
//! Rewrites files, or prints the changes that would be made.

use crate::rattle_std::prelude::{Vec};
use crate::rl_scan::diff::print_diff;
use crate::rl_scan::errors::report_errors;
use crate::rl_scan::failure::Failure;
use crate::rl_scan::finding::{Finding, Place};
use crate::rl_scan::modes::Mode;
use crate::rl_scan::output::Output;
use crate::rl_scan::print::Page;
use crate::rl_scan::run::Call;
use crate::rl_files::{PathError, Replace};
use crate::rl_lexer::{SourceToken, Sources};
use crate::rl_program::write_bytes;
use crate::rl_restyle::{RULES, RestyleError, changing_rules, number_of, rewrite_source};
use crate::rattle_std::alloc::Allocator;
use crate::rattle_std::io::Write;

const LONGEST_NAMED: usize = 1 << 20;

fn report_change<A: Allocator + Copy, W: Write>(
    page: &mut Page<'_, '_, A, W>,
    rules: &mut [u64; RULES],
    old: SourceToken<'_>,
    new: &str,
) -> Result<(), Failure<A>> {
    if !page.job.shows && !page.job.stats {
        page.count = page.count.saturating_add(1);
        return Ok(());
    }
    let before = page.source.get(..old.lo).unwrap_or("");
    let changing = if old.text.len() > LONGEST_NAMED {
        Vec::new(page.alloc)
    } else {
        changing_rules(page.alloc, page.job.style, before, old.text)?
    };
    for rule in changing.as_slice() {
        if let Some(count) = rules.get_mut(number_of(*rule)) {
            *count = count.saturating_add(1);
        }
    }
    let (lo, hi, old, rules) = (old.lo, old.hi, old.text, changing.as_slice());
    page.report_finding(Place { lo, hi }, Finding::Change { old, new, rules })
}

fn report_changes<A: Allocator + Copy, W: Write>(
    page: &mut Page<'_, '_, A, W>,
    rules: &mut [u64; RULES],
    new: &str,
) -> Result<(), Failure<A>> {
    let mut tokens = Sources::new(page.source);
    let mut new_tokens = Sources::new(new);
    for _ in 0..u64::MAX {
        let (Some(old), Some(rewritten)) = (tokens.next_literal(), new_tokens.next_literal()) else {
            break;
        };
        if old.text != rewritten.text {
            report_change(page, rules, old, rewritten.text)?;
        }
    }
    page.close()
}

impl<'o, 'e, 'a, A: Allocator + Copy, W: Write, E: Write> Call<'o, 'e, 'a, A, W, E> {
    fn explains<'t>(&mut self, path: &'t str, source: &'t str) -> Result<bool, Failure<A>> {
        let job = self.job;
        let job = job.for_errors();
        let mut page = Page::new(self.alloc, &job, path, source, self.err);
        report_errors(&mut page, job)?;
        page.close()?;
        Ok(page.count > 0)
    }

    fn replaces<F: Replace>(
        &mut self,
        files: &mut F,
        path: &str,
        old: &str,
        new: &str,
    ) -> Result<bool, Failure<A>> {
        match files.replace(self.alloc, path, old.as_bytes(), new.as_bytes()) {
            Ok(()) => Ok(true),
            Err(PathError::OutOfMemory) => Err(Failure::Memory),
            Err(why) => {
                self.complain_why(path, why)?;
                self.tally.errors = self.tally.errors.saturating_add(1);
                self.tally.read = self.tally.read.saturating_sub(1);
                Ok(false)
            }
        }
    }

    fn print_changes<'t, F: Replace>(
        &mut self,
        files: &mut F,
        path: &'t str,
        source: &'t str,
        new: &str,
    ) -> Result<u64, Failure<A>> {
        let is_input = path == "-";
        if self.job.mode == Mode::Fix && is_input {
            write_bytes(self.out, new.as_bytes())?;
            self.tally.prints_source = true;
        }
        if new == source
            || self.job.mode == Mode::Fix
                && !is_input
                && !self.replaces(files, path, source, new)?
        {
            return Ok(0);
        }
        let mut page = Page::new(self.alloc, &self.job, path, source, self.out);
        report_changes(&mut page, &mut self.tally.rules, new)?;
        let count = page.count;
        drop(page);
        if self.job.mode == Mode::Diff && !self.job.quiet {
            let mut output = Output::new(self.alloc, self.out);
            print_diff(&mut output, path, source, new)?;
        }
        Ok(count)
    }

    pub(crate) fn rewrite<'t, F: Replace>(
        &mut self,
        files: &mut F,
        path: &'t str,
        source: &'t str,
    ) -> Result<u64, Failure<A>> {
        let job = self.job;
        let rewritten = rewrite_source(self.alloc, job.style, job.choice(), source);
        let is_clean = match &rewritten {
            Ok(new) => new.is_clean,
            Err(_) => false,
        };
        if !is_clean && self.explains(path, source)? {
            self.tally.errors = self.tally.errors.saturating_add(1);
            return Ok(0);
        }
        match rewritten {
            Ok(new) => self.print_changes(files, path, source, new.text.as_str()),
            Err(RestyleError::Script) => {
                self.complain(path, "left alone: its first line begins with #!")?;
                if self.job.mode == Mode::Fix && path == "-" {
                    write_bytes(self.out, source.as_bytes())?;
                    self.tally.prints_source = true;
                }
                Ok(0)
            }
            Err(_) => Err(Failure::Memory),
        }
    }
}
