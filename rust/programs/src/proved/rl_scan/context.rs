// Rendered from crates/rl_scan/src/context.rt by tools/render, which erases contracts: change that file, and render again.
//! Prints lines of a source: the lines with findings, and the lines around them. Each line around findings is printed once, also if
//! it is near several findings.

use crate::rattle_std::prelude::{String};
use crate::rl_scan::escapes::{Before, Escapes, push_char, push_text};
use crate::rl_scan::failure::{Appended, Done};
use crate::rl_scan::finding::Place;
use crate::rl_scan::output::Output;
use crate::rl_scan::widths::width_of;
use crate::rattle_std::alloc::{AllocError, Allocator};
use crate::rattle_std::io::Write;

const LONGEST: usize = 1024;

const TOO_LONG: &str = "    (a line of more than 1024 bytes)\n";

#[derive(Clone, Copy)]
pub(crate) struct Around {
    pub before: usize,
    pub after: usize,
}

pub(crate) struct Context<'p> {
    source: &'p str,
    around: Around,
    line_at: usize,
    end: usize,
    owed: usize,
}

fn without_line_end(line: &str) -> &str {
    match line.strip_suffix('\n') {
        Some(line) => line.strip_suffix('\r').unwrap_or(line),
        None => line,
    }
}

impl<'p, A: Allocator + Copy, W: Write> Output<'p, A, W> {
    fn print_line(&mut self, line: &str) -> Done<A> {
        let shown = without_line_end(line);
        if shown.len() > LONGEST {
            self.text.push_str(TOO_LONG)?;
        } else {
            self.text.push_str("    ")?;
            push_text(&mut self.text, Escapes::Line, Before::Space, shown)?;
            self.text.push('\n')?;
        }
        self.send_if_full()
    }

    fn print_last_lines(&mut self, text: &str, count: usize) -> Done<A> {
        let mut front = text;
        for _ in 0..count {
            let Some(inside) = front.strip_suffix('\n') else {
                break;
            };
            let lines = match inside.rsplit_once('\n') {
                Some((lines, _)) => lines.len().saturating_add(1),
                None => 0,
            };
            front = front.get(..lines).unwrap_or("");
        }
        for line in text.get(front.len()..).unwrap_or("").split_inclusive('\n') {
            self.print_line(line)?;
        }
        Ok(())
    }
}

fn push_marked<A: Allocator>(
    out: &mut String<A>,
    marks: &mut String<A>,
    mark: char,
    before: Before,
    part: &str,
) -> Result<Before, AllocError> {
    let mut last = before;
    for c in part.chars() {
        let start = out.len();
        last = push_char(out, Escapes::Line, last, c)?;
        let len = out.len().saturating_sub(start);
        let is_unchanged = len == c.len_utf8();
        if c == '\t' {
            marks.push(if mark == ' ' { '\t' } else { mark })?;
        } else {
            let width = if is_unchanged { width_of(c) } else { len };
            for _ in 0..width {
                marks.push(mark)?;
            }
        }
    }
    Ok(last)
}

fn push_marked_line<A: Allocator>(
    out: &mut String<A>,
    marks: &mut String<A>,
    line: &str,
    lo: usize,
    hi: usize,
) -> Appended {
    if line.len() > LONGEST {
        return out.push_str(TOO_LONG);
    }
    let (front, found) = line.split_at_checked(lo).unwrap_or((line, ""));
    let len = hi.saturating_sub(lo);
    let (marked, rest) = found.split_at_checked(len).unwrap_or((found, ""));
    marks.clear();
    out.push_str("    ")?;
    let last = push_marked(out, marks, ' ', Before::Space, front)?;
    let blank = marks.len();
    let last = push_marked(out, marks, '^', last, marked)?;
    if marks.len() == blank {
        marks.push('^')?;
    }
    let length = marks.len();
    let _ = push_marked(out, marks, ' ', last, rest)?;
    out.push_str("\n    ")?;
    out.push_str(marks.as_str().get(..length).unwrap_or(""))?;
    out.push('\n')
}

impl<'p> Context<'p> {
    pub(crate) fn new(source: &'p str, start: usize, around: Around) -> Context<'p> {
        Context {
            source,
            around,
            line_at: usize::MAX,
            end: start,
            owed: 0,
        }
    }

    pub(crate) fn print_owed<A: Allocator + Copy, W: Write>(
        &mut self,
        output: &mut Output<'_, A, W>,
        end: usize,
    ) -> Done<A> {
        if self.owed == 0 {
            return Ok(());
        }
        let owed = self.source.get(self.end..end).unwrap_or("");
        for line in owed.split_inclusive('\n') {
            if self.owed == 0 {
                break;
            }
            output.print_line(line)?;
            self.end = self.end.saturating_add(line.len());
            self.owed = self.owed.saturating_sub(1);
        }
        Ok(())
    }

    pub(crate) fn print_finding<A: Allocator + Copy, W: Write>(
        &mut self,
        output: &mut Output<'_, A, W>,
        marks: &mut String<A>,
        line_at: usize,
        place: Place,
    ) -> Done<A> {
        if line_at != self.line_at {
            let lines = self.source.get(self.end..line_at).unwrap_or("");
            output.print_last_lines(lines, self.around.before)?;
            let found = self.source.get(place.lo..).unwrap_or("");
            let (_, after) = found.split_once('\n').unwrap_or(("", ""));
            self.end = self.source.len().saturating_sub(after.len());
            self.line_at = line_at;
        }
        self.owed = self.around.after;
        let line = without_line_end(self.source.get(line_at..self.end).unwrap_or(""));
        let lo = place.lo.saturating_sub(line_at);
        let hi = place.hi.saturating_sub(line_at);
        Ok(push_marked_line(&mut output.text, marks, line, lo, hi)?)
    }
}
