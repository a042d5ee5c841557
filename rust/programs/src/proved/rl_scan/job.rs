// Rendered from crates/rl_scan/src/job.rt by tools/render, which erases contracts: change that file, and render again.
//! The work of a call of `rl_scan` on each file.

use crate::rattle_std::prelude::{String};
use crate::rl_scan::args::{Args, is_among};
use crate::rl_scan::checks::number_in;
use crate::rl_scan::context::Around;
use crate::rl_scan::failure::Appended;
use crate::rl_scan::finding::Finding;
use crate::rl_scan::ids::character_of;
use crate::rl_scan::modes::{Mode, REWRITING};
use crate::rl_scan::position::Position;
use crate::rl_flaws::Edition;
use crate::rl_restyle::{Choice, Macros};
use crate::rl_style::Style;
use crate::rl_syntax::Kind;
use crate::rattle_std::alloc::Allocator;

#[derive(Clone, Copy)]
pub(crate) enum Form {
    Text,
    Json,
    Github,
}

#[derive(Clone, Copy)]
pub(crate) struct Lists<'a> {
    pub finds: &'a [&'a str],
    pub numbers: &'a [u128],
    pub allowed: &'a [&'a str],
    pub kinds: &'a [Option<Kind>],
}

#[derive(Clone, Copy)]
pub(crate) struct Job<'a> {
    pub mode: Mode,
    pub lists: Lists<'a>,
    pub any_suffix: bool,
    pub strays: bool,
    pub follows: bool,
    pub edition: Edition,
    pub ignores_case: bool,
    pub whole_words: bool,
    pub as_written: bool,
    pub form: Form,
    pub color: bool,
    pub around: Option<Around>,
    pub lines: bool,
    pub bytes: bool,
    pub byte_columns: bool,
    pub shows: bool,
    pub quiet: bool,
    pub counts: bool,
    pub names: bool,
    pub nul: bool,
    pub lists_files: bool,
    pub messages: bool,
    pub stats: bool,
    pub may_be_text: bool,
    pub style: Style,
    pub macros: Macros,
}

fn edition_of(year: Option<&str>) -> Edition {
    match year {
        Some("2015") => Edition::E2015,
        Some("2018") => Edition::E2018,
        Some("2024") => Edition::E2024,
        _ => Edition::E2021,
    }
}

fn lines_of<A: Allocator + Copy>(args: &Args<'_, A>, name: &str) -> Option<usize> {
    number_in(args.last(name)?)
}

fn around_of<A: Allocator + Copy>(args: &Args<'_, A>) -> Option<Around> {
    let both = lines_of(args, "--context");
    let before = lines_of(args, "--before-context").or(both);
    let after = lines_of(args, "--after-context").or(both);
    if before.is_none() && after.is_none() {
        return None;
    }
    let (before, after) = (before.unwrap_or(0), after.unwrap_or(0));
    Some(Around { before, after })
}

impl<'a> Job<'a> {
    pub(crate) fn of<A: Allocator + Copy>(
        args: &Args<'_, A>,
        lists: Lists<'a>,
        style: Style,
        has_colors: bool,
    ) -> Job<'a> {
        let mode = args.mode();
        let all = args.last("--macros") == Some("all");
        let macros = if all { Macros::All } else { Macros::Skip };
        let (quiet, counts) = (args.has("--quiet"), args.has("--count"));
        let names = args.has("--files-with-matches");
        Job {
            mode,
            lists,
            any_suffix: args.has("--any-suffix"),
            strays: args.has("--no-stray"),
            follows: mode == Mode::Bad && !all,
            edition: edition_of(args.last("--edition")),
            ignores_case: args.has("--ignore-case"),
            whole_words: args.has("--word"),
            as_written: args.has("--text"),
            form: match args.form() {
                "json" => Form::Json,
                "github" => Form::Github,
                _ => Form::Text,
            },
            color: match args.last("--color") {
                Some("always") => true,
                Some("never") => false,
                _ => has_colors,
            },
            around: around_of(args),
            lines: args.has("--lines"),
            bytes: args.has("--bytes"),
            byte_columns: args.last("--columns") == Some("bytes"),
            shows: !(quiet || counts || names || mode == Mode::Fix || mode == Mode::Diff),
            quiet,
            counts,
            names,
            nul: args.has("--null"),
            lists_files: args.has("--files"),
            messages: !args.has("--no-messages"),
            stats: args.has("--stats"),
            may_be_text: mode == Mode::List && args.last("--files-from").is_none(),
            style,
            macros,
        }
    }

    pub(crate) fn rewrites(&self) -> bool {
        self.mode.is_among(REWRITING)
    }

    pub(crate) fn choice(&self) -> Choice<'a> {
        let (macros, kinds) = (self.macros, self.lists.kinds);
        let kinds = if kinds.is_empty() { None } else { Some(kinds) };
        Choice { macros, kinds }
    }

    pub(crate) fn shows_lines(&self, is_file: bool) -> bool {
        !self.bytes && (self.lines || is_file)
    }

    pub(crate) fn column(&self, position: Position) -> usize {
        if self.byte_columns {
            position.byte_column()
        } else {
            position.column
        }
    }

    pub(crate) fn push_color<A: Allocator>(&self, out: &mut String<A>, code: &str) -> Appended {
        if self.color {
            out.push_str(code)
        } else {
            Ok(())
        }
    }

    pub(crate) fn allows_error(&self, id: &str) -> bool {
        is_among(self.lists.allowed, id)
    }

    pub(crate) fn allows(&self, finding: &Finding<'_>) -> bool {
        let allowed = self.lists.allowed;
        if allowed.is_empty() {
            return false;
        }
        if is_among(allowed, finding.id()) {
            return true;
        }
        match finding {
            Finding::Hidden(c) => allowed.iter().any(|id| character_of(id) == Some(*c)),
            _ => false,
        }
    }

    pub(crate) fn wants(&self, kind: Option<Kind>) -> bool {
        let kinds = self.lists.kinds;
        kinds.is_empty() || kinds.iter().any(|wanted| *wanted == kind)
    }

    pub(crate) fn for_errors(&self) -> Job<'a> {
        let mut job = *self;
        job.form = Form::Text;
        job.color = false;
        job.around = None;
        job.shows = self.messages;
        job.any_suffix = true;
        job.strays = true;
        job
    }

    pub(crate) fn status(&self, findings: u64, are_accepted: bool) -> u8 {
        if self.lists_files {
            return 0;
        }
        match self.mode {
            Mode::Bad => if findings == 0 && are_accepted { 0 } else { 1 },
            Mode::Invisible | Mode::Check | Mode::Diff => if findings == 0 { 0 } else { 1 },
            Mode::Find => if findings == 0 { 1 } else { 0 },
            _ => 0,
        }
    }
}
