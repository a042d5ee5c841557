// Rendered from crates/rl_scan/src/findings.rt by tools/render, which erases contracts: change that file, and render again.
//! Finds what a call prints of a source: its literals, its errors, or its invisible characters.

use crate::rl_scan::errors::{next_token, report_errors};
use crate::rl_scan::failure::{Done, Failure};
use crate::rl_scan::finding::{Finding, Place};
use crate::rl_scan::hidden::report_hidden;
use crate::rl_scan::job::Job;
use crate::rl_scan::literal::Literal;
use crate::rl_scan::modes::Mode;
use crate::rl_scan::print::Page;
use crate::rl_scan::search::found_in;
use crate::rl_lexer::{LexError, LexKind, SourceForm, SourceToken, Sources};
use crate::rattle_std::alloc::Allocator;
use crate::rattle_std::io::Write;

impl<'p, 'a, A: Allocator + Copy, W: Write> Page<'p, 'a, A, W> {
    fn report_literal(&mut self, token: SourceToken<'_>) -> Done<A> {
        let literal = Literal::parse(token.text);
        if !self.job.wants(literal.kind()) {
            return Ok(());
        }
        let (lo, hi) = (token.lo, token.hi);
        if self.job.mode != Mode::Find {
            return self.report_finding(Place { lo, hi }, Finding::Literal(literal));
        }
        match found_in(self.alloc, self.job, &literal)? {
            Some(found) => self.report_finding(found.after(lo), Finding::Literal(literal)),
            None => Ok(()),
        }
    }

    fn report_literals(&mut self) -> Result<Option<LexError>, Failure<A>> {
        let mut tokens = Sources::new(self.source);
        for _ in 0..u64::MAX {
            let Some(token) = next_token(&mut tokens, self.job.strays) else {
                break;
            };
            if token.is_literal() {
                self.report_literal(token)?;
            } else if self.job.strays && matches!(token.form, SourceForm::Stray) {
                return Ok(Some(LexError::new(LexKind::StrayCharacter, token.lo)));
            }
        }
        Ok(tokens.error())
    }
}

pub(crate) fn report_findings<A: Allocator + Copy, W: Write>(
    page: &mut Page<'_, '_, A, W>,
    job: Job<'_>,
) -> Result<(bool, Option<LexError>), Failure<A>> {
    match job.mode {
        Mode::Bad => Ok((report_errors(page, job)?, None)),
        Mode::Invisible => {
            report_hidden(page)?;
            Ok((false, None))
        }
        _ => Ok((false, page.report_literals()?)),
    }
}
