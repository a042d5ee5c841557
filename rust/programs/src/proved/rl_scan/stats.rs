// Rendered from crates/rl_scan/src/stats.rt by tools/render, which erases contracts: change that file, and render again.
//! The totals of a run.

use crate::rattle_std::prelude::{String};
use crate::rl_scan::failure::{Appended, Done};
use crate::rl_scan::job::Form;
use crate::rl_scan::run::Call;
use crate::rl_program::write_bytes;
use crate::rl_restyle::{RULES, number_of, settable_rules};
use crate::rattle_std::alloc::Allocator;
use crate::rattle_std::io::Write;

#[derive(Clone, Copy)]
pub(crate) struct Tally {
    pub visited: u64,
    pub read: u64,
    pub with_findings: u64,
    pub findings: u64,
    pub errors: u64,
    pub rules: [u64; RULES],
    pub prints_source: bool,
}

impl Tally {
    pub(crate) fn none() -> Tally {
        Tally {
            visited: 0,
            read: 0,
            with_findings: 0,
            findings: 0,
            errors: 0,
            rules: [0; RULES],
            prints_source: false,
        }
    }
}

fn push_rule_counts<A: Allocator>(
    text: &mut String<A>,
    is_json: bool,
    counts: &[u64; RULES],
) -> Appended {
    let mut is_first = true;
    if is_json {
        text.push_str(",\"rules\":{")?;
    }
    for rule in settable_rules() {
        let count = counts.get(number_of(*rule)).copied().unwrap_or(0);
        let name = rule.name();
        if count > 0 && is_json {
            let lead = if is_first { "" } else { "," };
            write!(text, "{lead}\"{name}\":{count}")?;
            is_first = false;
        } else if count > 0 {
            writeln!(text, "{name}: {count}")?;
        }
    }
    if is_json { text.push('}') } else { Ok(()) }
}

impl<'o, 'e, 'a, A: Allocator + Copy, W: Write, E: Write> Call<'o, 'e, 'a, A, W, E> {
    pub(crate) fn print_totals(&mut self) -> Done<A> {
        let mut text = String::new(self.alloc);
        let (read, with_findings) = (self.tally.read, self.tally.with_findings);
        let (findings, errors) = (self.tally.findings, self.tally.errors);
        let job = self.job;
        let is_json = matches!(job.form, Form::Json);
        if is_json {
            write!(
                text,
                "{{\"files\":{read},\"files_with_findings\":{with_findings},\"findings\":{findings},\"errors\":{errors}"
            )?;
        } else {
            writeln!(
                text,
                "files: {read}\nfiles with findings: {with_findings}\nfindings: {findings}\nfiles with an error: {errors}"
            )?;
        }
        if job.rewrites() {
            push_rule_counts(&mut text, is_json, &self.tally.rules)?;
        }
        if is_json {
            text.push_str("}\n")?;
        }
        if self.tally.prints_source {
            write_bytes(self.err, text.as_bytes())?;
        } else {
            write_bytes(self.out, text.as_bytes())?;
        }
        Ok(())
    }
}
