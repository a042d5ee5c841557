// Rendered from crates/rl_scan/src/print.rt by tools/render, which erases contracts: change that file, and render again.
//! Prints the findings of a source: as lines of text, as JSON objects, or as annotations for GitHub.

use crate::rattle_std::prelude::{String};
use crate::rl_scan::context::Context;
use crate::rl_scan::escapes::{Before, Escapes, push_number, push_property, push_text};
use crate::rl_scan::failure::{Appended, Done};
use crate::rl_scan::finding::{Finding, Place};
use crate::rl_scan::job::{Form, Job};
use crate::rl_scan::output::Output;
use crate::rl_scan::position::Position;
use crate::rattle_std::alloc::Allocator;
use crate::rattle_std::io::Write;

pub(crate) struct Page<'p, 'a, A: Allocator, W> {
    pub alloc: A,
    pub job: &'p Job<'a>,
    pub source: &'p str,
    pub count: u64,
    pub output: Output<'p, A, W>,
    pub line: String<A>,
    path: Option<&'p str>,
    head: String<A>,
    position: Position,
    context: Option<Context<'p>>,
}

pub(crate) fn without_dot_slash(path: &str) -> &str {
    match path.strip_prefix("./") {
        Some(rest) => if rest.starts_with('/') { path } else { rest },
        None => path,
    }
}

impl<'p, 'a, A: Allocator + Copy, W: Write> Page<'p, 'a, A, W> {
    pub(crate) fn new(
        alloc: A,
        job: &'p Job<'a>,
        path: &'p str,
        source: &'p str,
        stream: &'p mut W,
    ) -> Page<'p, 'a, A, W> {
        let position = Position::first(source);
        Page {
            alloc,
            job,
            source,
            count: 0,
            output: Output::new(alloc, stream),
            line: String::new(alloc),
            path: if path == "-" { None } else { Some(path) },
            head: String::new(alloc),
            position,
            context: job.around.map(|it| Context::new(source, position.at, it)),
        }
    }

    pub(crate) fn report_finding(&mut self, place: Place, finding: Finding<'_>) -> Done<A> {
        if self.job.allows(&finding) {
            return Ok(());
        }
        self.count = self.count.saturating_add(1);
        if !self.job.shows {
            return Ok(());
        }
        if self.head.is_empty() {
            self.push_head()?;
        }
        match self.job.form {
            Form::Text => self.print_text(place, &finding)?,
            Form::Json => self.print_object(place, &finding)?,
            Form::Github => self.print_annotation(place, &finding)?,
        }
        self.output.send_if_full()
    }

    pub(crate) fn close(&mut self) -> Done<A> {
        if let Some(context) = &mut self.context {
            context.print_owed(&mut self.output, self.source.len())?;
        }
        self.output.send()
    }

    pub(crate) fn within(&self) -> Before {
        match self.job.form {
            Form::Github => Before::Annotation,
            Form::Text | Form::Json => Before::Other,
        }
    }

    fn push_head(&mut self) -> Appended {
        let Some(path) = self.path else {
            return Ok(());
        };
        match self.job.form {
            Form::Text => {
                self.job.push_color(&mut self.head, "\x1b[35m")?;
                push_text(&mut self.head, Escapes::Literal, Before::Space, path)?;
                self.job.push_color(&mut self.head, "\x1b[0m")?;
                self.head.push(':')
            }
            Form::Json => {
                self.head.push_str("\"path\":\"")?;
                push_text(&mut self.head, Escapes::Json, Before::Other, path)?;
                self.head.push_str("\",")
            }
            Form::Github => {
                self.head.push_str("file=")?;
                push_property(&mut self.head, without_dot_slash(path))?;
                self.head.push(',')
            }
        }
    }

    fn push_text_start(&mut self, place: Place) -> Appended {
        let out = &mut self.output.text;
        out.push_str(self.head.as_str())?;
        self.job.push_color(out, "\x1b[32m")?;
        if self.job.shows_lines(self.path.is_some()) {
            push_number(out, self.position.line)?;
            out.push(':')?;
            push_number(out, self.job.column(self.position))?;
        } else {
            push_number(out, place.lo)?;
            out.push_str("..")?;
            push_number(out, place.hi)?;
        }
        self.job.push_color(out, "\x1b[0m")?;
        out.push_str(if self.path.is_some() { ": " } else { " " })
    }

    fn print_text(&mut self, place: Place, finding: &Finding<'_>) -> Done<A> {
        if self.context.is_some() || self.job.shows_lines(self.path.is_some()) {
            self.position = self.position.moved(self.source, place.lo);
        }
        if let Some(context) = &mut self.context {
            context.print_owed(&mut self.output, self.position.line_at)?;
        }
        self.push_text_start(place)?;
        if matches!(finding, Finding::Error(_)) {
            self.job.push_color(&mut self.output.text, "\x1b[1;31m")?;
            self.output.text.push_str("error")?;
            self.job.push_color(&mut self.output.text, "\x1b[0m")?;
            self.output.text.push_str(": ")?;
        }
        self.print_words(finding)?;
        self.output.text.push('\n')?;
        if let Some(context) = &mut self.context {
            let at = self.position.line_at;
            context.print_finding(&mut self.output, &mut self.line, at, place)?;
        }
        Ok(())
    }

    fn print_object(&mut self, place: Place, finding: &Finding<'_>) -> Done<A> {
        let start = self.position.moved(self.source, place.lo);
        let end = start.moved(self.source, place.hi);
        self.position = start;
        self.output.text.push('{')?;
        self.output.text.push_str(self.head.as_str())?;
        for (name, number) in [
            ("\"lo\":", place.lo),
            (",\"hi\":", place.hi),
            (",\"line\":", start.line),
            (",\"column\":", start.column),
            (",\"end_line\":", end.line),
            (",\"end_column\":", end.column),
            (",\"byte_column\":", start.byte_column()),
            (",\"end_byte_column\":", end.byte_column()),
        ] {
            self.output.text.push_str(name)?;
            push_number(&mut self.output.text, number)?;
        }
        self.print_members(finding)?;
        self.output.text.push_str("}\n")?;
        Ok(())
    }

    fn print_annotation(&mut self, place: Place, finding: &Finding<'_>) -> Done<A> {
        let start = self.position.moved(self.source, place.lo);
        let end = start.moved(self.source, place.hi);
        self.position = start;
        let is_notice = matches!(finding, Finding::Literal(_));
        let lead = if is_notice { "::notice " } else { "::error " };
        self.output.text.push_str(lead)?;
        self.output.text.push_str(self.head.as_str())?;
        for (name, number) in [
            ("line=", start.line),
            (",endLine=", end.line),
            (",col=", self.job.column(start)),
            (",endColumn=", self.job.column(end)),
        ] {
            self.output.text.push_str(name)?;
            push_number(&mut self.output.text, number)?;
        }
        self.output.text.push_str(",title=")?;
        self.output.text.push_str(finding.id())?;
        self.output.text.push_str("::")?;
        self.print_words(finding)?;
        self.output.text.push('\n')?;
        Ok(())
    }
}
