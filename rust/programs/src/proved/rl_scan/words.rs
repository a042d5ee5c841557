// Rendered from crates/rl_scan/src/words.rt by tools/render, which erases contracts: change that file, and render again.
//! Prints a finding itself: as words in a line, or as members of a JSON object.

use crate::rattle_std::prelude::{String};
use crate::rl_scan::escapes::Escapes;
use crate::rl_scan::failure::{Appended, Done};
use crate::rl_scan::finding::{Fault, Finding};
use crate::rl_scan::hidden::bidi_name;
use crate::rl_scan::literal::Literal;
use crate::rl_scan::print::Page;
use crate::rl_program::label_of;
use crate::rl_restyle::Rule;
use crate::rl_syntax::Kind;
use crate::rattle_std::alloc::Allocator;
use crate::rattle_std::io::Write;

const LONGEST: usize = 1024;

fn push_names<A: Allocator>(out: &mut String<A>, separator: &str, rules: &[Rule]) -> Appended {
    let mut is_first = true;
    for rule in rules {
        if !is_first {
            out.push_str(separator)?;
        }
        out.push_str(rule.name())?;
        is_first = false;
    }
    Ok(())
}

fn digits_in(line: &str) -> &str {
    let (_, rest) = line.split_once(' ').unwrap_or(("", ""));
    let (digits, _) = rest.split_once(' ').unwrap_or((rest, ""));
    digits
}

impl<'p, 'a, A: Allocator + Copy, W: Write> Page<'p, 'a, A, W> {
    pub(crate) fn print_words(&mut self, finding: &Finding<'_>) -> Done<A> {
        let (within, escapes) = (self.within(), Escapes::Literal);
        match finding {
            Finding::Literal(literal) if self.job.as_written => {
                self.output.print(escapes, within, literal.text())
            }
            Finding::Literal(literal) => {
                self.line.clear();
                literal.push_line(self.alloc, &mut self.line)?;
                let line = self.line.as_str();
                self.output
                    .print(escapes, within, line.strip_suffix('\n').unwrap_or(line))
            }
            Finding::Error(fault) => {
                self.output.text.push_str(fault.message)?;
                if fault.piece.is_empty() && fault.literal.is_none() {
                    return Ok(());
                }
                self.output.text.push_str(": ")?;
                self.output.print(escapes, within, fault.piece)
            }
            Finding::Hidden(c) => {
                let (code, name) = (*c as u32, bidi_name(*c));
                write!(self.output.text, "U+{code:04X}{name}")?;
                Ok(())
            }
            Finding::Change { old, new, rules } => {
                self.output.print(Escapes::Numbers, within, old)?;
                self.output.text.push_str(" -> ")?;
                self.output.print(Escapes::Numbers, within, new)?;
                self.output.text.push_str(" [")?;
                push_names(&mut self.output.text, ", ", rules)?;
                self.output.text.push(']')?;
                Ok(())
            }
        }
    }

    fn print_value(&mut self, literal: &Literal<'_>) -> Done<A> {
        if let (Some(Kind::Str), Some((_, value))) = (literal.kind(), literal.plain_value()) {
            return self.output.print_json("", value);
        }
        match literal.kind() {
            None => self.output.text.push_str("null")?,
            Some(Kind::Bool) => self.output.text.push_str(literal.text())?,
            Some(Kind::Int | Kind::Float) => {
                self.line.clear();
                literal.push_line(self.alloc, &mut self.line)?;
                self.output.print_json("", digits_in(self.line.as_str()))?;
            }
            Some(Kind::Str | Kind::Char) => {
                let value = literal.value(self.alloc)?;
                let text = crate::rattle_std::str::from_utf8(value.as_slice()).unwrap_or("");
                self.output.print_json("", text)?;
            }
            Some(Kind::ByteStr | Kind::CStr | Kind::Byte) => {
                self.output
                    .print_array(literal.value(self.alloc)?.as_slice())?;
            }
        }
        Ok(())
    }

    fn print_fault(&mut self, fault: &Fault<'_>) -> Done<A> {
        match fault.literal {
            Some(text) if text.len() > LONGEST => self.output.text.push_str(",\"text\":null")?,
            Some(text) => self.output.print_json(",\"text\":", text)?,
            None => {}
        }
        self.output.print_json(",\"id\":", fault.id)?;
        self.output.print_json(",\"error\":", fault.message)?;
        if fault.piece.is_empty() && fault.literal.is_none() {
            return Ok(());
        }
        self.output.print_json(",\"piece\":", fault.piece)
    }

    pub(crate) fn print_members(&mut self, finding: &Finding<'_>) -> Done<A> {
        match finding {
            Finding::Literal(literal) => {
                self.output
                    .print_json(",\"kind\":", label_of(literal.kind()))?;
                self.output.print_json(",\"text\":", literal.text())?;
                self.output.text.push_str(",\"value\":")?;
                self.print_value(literal)?;
                self.output.print_json(",\"suffix\":", literal.suffix())
            }
            Finding::Error(fault) => self.print_fault(fault),
            Finding::Hidden(c) => {
                let (id, code, name) = (finding.id(), *c as u32, bidi_name(*c));
                write!(
                    self.output.text,
                    ",\"id\":\"{id}\",\"hidden\":\"U+{code:04X}{name}\""
                )?;
                Ok(())
            }
            Finding::Change { old, new, rules } => {
                self.output.print_json(",\"text\":", old)?;
                self.output.print_json(",\"new\":", new)?;
                self.output.text.push_str(",\"rules\":[")?;
                if !rules.is_empty() {
                    self.output.text.push('"')?;
                    push_names(&mut self.output.text, "\",\"", rules)?;
                    self.output.text.push('"')?;
                }
                self.output.text.push(']')?;
                Ok(())
            }
        }
    }
}
