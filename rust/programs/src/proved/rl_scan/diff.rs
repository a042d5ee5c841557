// Rendered from crates/rl_scan/src/diff.rt by tools/render, which erases contracts: change that file, and render again.
//! Prints the unified diff of two texts, without lines of context.

use crate::rattle_std::prelude::{String};
use crate::rl_scan::escapes::push_number;
use crate::rl_scan::failure::Failure;
use crate::rl_scan::output::Output;
use crate::rl_scan::print::without_dot_slash;
use crate::rl_files::push_visible;
use crate::rl_syntax::lines::after_first_line_feed;
use crate::rattle_std::alloc::{AllocError, Allocator};
use crate::rattle_std::io::Write;

fn up_to<'t>(text: &'t str, rest: &str) -> &'t str {
    text.get(..text.len().saturating_sub(rest.len()))
        .unwrap_or("")
}

fn split_line(text: &str) -> (&str, &str) {
    match after_first_line_feed(text) {
        Some(rest) => (up_to(text, rest), rest),
        None => (text, ""),
    }
}

fn push_range<A: Allocator>(out: &mut String<A>, at: usize, lines: &str) -> Result<(), AllocError> {
    let count = lines.split_inclusive('\n').count();
    push_number(out, if count == 0 { at.saturating_sub(1) } else { at })?;
    out.push(',')?;
    push_number(out, count)
}

fn push_head<A: Allocator>(out: &mut String<A>, mark: &str, path: &str) -> Result<(), AllocError> {
    out.push_str(mark)?;
    push_visible(out, path)?;
    out.push_str(if path.contains(' ') { "\t\n" } else { "\n" })
}

fn print_lines<A: Allocator + Copy, W: Write>(
    output: &mut Output<'_, A, W>,
    sign: char,
    text: &str,
) -> Result<(), Failure<A>> {
    for line in text.split_inclusive('\n') {
        output.text.push(sign)?;
        output.print_bare(line)?;
        if !line.ends_with('\n') {
            output.text.push_str("\n\\ No newline at end of file\n")?;
        }
        output.send_if_full()?;
    }
    Ok(())
}

fn print_hunk<A: Allocator + Copy, W: Write>(
    output: &mut Output<'_, A, W>,
    at: usize,
    gone: &str,
    added: &str,
) -> Result<(), Failure<A>> {
    if gone.is_empty() && added.is_empty() {
        return Ok(());
    }
    output.text.push_str("@@ -")?;
    push_range(&mut output.text, at, gone)?;
    output.text.push_str(" +")?;
    push_range(&mut output.text, at, added)?;
    output.text.push_str(" @@\n")?;
    print_lines(output, '-', gone)?;
    print_lines(output, '+', added)
}

pub(crate) fn print_diff<A: Allocator + Copy, W: Write>(
    output: &mut Output<'_, A, W>,
    path: &str,
    old: &str,
    new: &str,
) -> Result<(), Failure<A>> {
    push_head(&mut output.text, "--- ", without_dot_slash(path))?;
    push_head(&mut output.text, "+++ ", without_dot_slash(path))?;
    let mut line = 1_usize;
    let mut at = 1_usize;
    let (mut gone, mut old_rest) = (old, old);
    let (mut added, mut new_rest) = (new, new);
    for _ in 0..old.len() {
        if old_rest.is_empty() || new_rest.is_empty() {
            break;
        }
        let (old_line, old_after) = split_line(old_rest);
        let (new_line, new_after) = split_line(new_rest);
        if old_line == new_line {
            print_hunk(output, at, up_to(gone, old_rest), up_to(added, new_rest))?;
            at = line.saturating_add(1);
            gone = old_after;
            added = new_after;
        }
        line = line.saturating_add(1);
        old_rest = old_after;
        new_rest = new_after;
    }
    print_hunk(output, at, gone, added)?;
    output.send()
}
