// Rendered from crates/rl_scan/src/run.rt by tools/render, which erases contracts: change that file, and render again.
//! Runs `rl_scan`: visits files, prints their findings, and determines the exit status.

use crate::rattle_std::prelude::{String, Vec, format};
use crate::rl_scan::args::{Args, without_mark};
use crate::rl_scan::errors::{both, report_end};
use crate::rl_scan::escapes::{Before, Escapes, push_text};
use crate::rl_scan::failure::{Appended, Done, Failure};
use crate::rl_scan::findings::report_findings;
use crate::rl_scan::job::{Job, Lists};
use crate::rl_scan::literal::integers_of;
use crate::rl_scan::modes::Mode;
use crate::rl_scan::options::row_named;
use crate::rl_scan::pages::page_of;
use crate::rl_scan::paths::{extensions_of, paths_of};
use crate::rl_scan::print::Page;
use crate::rl_scan::stats::Tally;
use crate::rl_scan::style::{kinds_of, style_of};
use crate::rl_files::{PathError, Replace, Selection, Tree, Visit, Walk, WalkError};
use crate::rl_program::{Ending, write_bytes};
use crate::rattle_std::alloc::Allocator;
use crate::rattle_std::io::Write;

pub struct Console<'o, 'e, W, E> {
    pub lacks_input: bool,
    pub has_colors: bool,
    pub out: &'o mut W,
    pub err: &'e mut E,
}

pub(crate) struct Call<'o, 'e, 'a, A: Allocator, W, E> {
    pub alloc: A,
    pub job: Job<'a>,
    pub out: &'o mut W,
    pub err: &'e mut E,
    pub tally: Tally,
}

impl<'o, 'e, 'a, A: Allocator + Copy, W: Write, E: Write> Call<'o, 'e, 'a, A, W, E> {
    pub(crate) fn complain(&mut self, path: &str, words: &str) -> Done<A> {
        if !self.job.messages {
            return Ok(());
        }
        let mut line = String::from_str(self.alloc, "rl_scan: ")?;
        push_text(&mut line, Escapes::Literal, Before::Other, path)?;
        line.push_str(": ")?;
        line.push_str(words)?;
        line.push('\n')?;
        write_bytes(self.err, line.as_bytes())?;
        Ok(())
    }

    pub(crate) fn complain_why(&mut self, path: &str, why: PathError) -> Done<A> {
        let mut words = format!(in self.alloc; "{why}")?;
        if matches!(why, PathError::NotFound) && !path.is_empty() {
            let option = format!(in self.alloc; "--{path}")?;
            if row_named(option.as_str()).is_some() {
                write!(words, ": did you mean --{path}?")?;
            } else if self.job.may_be_text && !path.contains('/') && !path.contains('.') {
                words.push_str(": to search for a text, use --find TEXT")?;
            }
        }
        self.complain(without_mark(path), words.as_str())
    }

    fn report_unread(&mut self, path: &str, why: PathError) -> Result<bool, Failure<A>> {
        self.complain_why(path, why)?;
        if matches!(why, PathError::PathNotUtf8) {
            return Ok(true);
        }
        self.tally.visited = self.tally.visited.saturating_add(1);
        self.tally.errors = self.tally.errors.saturating_add(1);
        Ok(false)
    }

    fn push_file(&self, out: &mut String<A>, path: &str, mark: char) -> Appended {
        self.job.push_color(out, "\x1b[35m")?;
        if self.job.nul {
            out.push_str(path)?;
        } else {
            push_text(out, Escapes::Literal, Before::Space, without_mark(path))?;
        }
        self.job.push_color(out, "\x1b[0m")?;
        out.push(if self.job.nul { '\0' } else { mark })
    }

    fn print_count(&mut self, path: &str, count: u64) -> Done<A> {
        let mut line = String::new(self.alloc);
        let is_input = path == "-";
        let is_fix = self.job.mode == Mode::Fix && !is_input && !self.job.quiet;
        if self.job.counts || is_fix {
            if !is_input {
                self.push_file(&mut line, path, ':')?;
            }
            writeln!(line, "{count}")?;
        } else if self.job.names {
            self.push_file(&mut line, path, '\n')?;
        }
        write_bytes(self.out, line.as_bytes())?;
        Ok(())
    }

    fn print_findings<'t>(
        &mut self,
        job: Job<'a>,
        path: &'t str,
        source: &'t str,
    ) -> Result<(u64, bool), Failure<A>> {
        let mut page = Page::new(self.alloc, &job, path, source, self.out);
        let (are_accepted, end) = report_findings(&mut page, job)?;
        page.close()?;
        let count = page.count;
        drop(page);
        if let Some(error) = end {
            let job = job.for_errors();
            let mut errors = Page::new(self.alloc, &job, path, source, self.err);
            report_end(&mut errors, job, error)?;
            errors.close()?;
            drop(errors);
            self.tally.errors = self.tally.errors.saturating_add(1);
        }
        Ok((count, are_accepted))
    }

    fn add_findings(&mut self, path: &str, count: u64) -> Done<A> {
        if count == 0 {
            return Ok(());
        }
        self.tally.with_findings = self.tally.with_findings.saturating_add(1);
        self.tally.findings = self.tally.findings.saturating_add(count);
        self.print_count(path, count)
    }

    fn report_source<'t, F: Replace>(
        &mut self,
        job: Job<'a>,
        files: &mut F,
        path: &'t str,
        source: &'t str,
    ) -> Result<bool, Failure<A>> {
        self.tally.visited = self.tally.visited.saturating_add(1);
        self.tally.read = self.tally.read.saturating_add(1);
        if job.rewrites() {
            let count = self.rewrite(files, path, source)?;
            self.add_findings(path, count)?;
            return Ok(false);
        }
        let (count, are_accepted) = self.print_findings(job, path, source)?;
        self.add_findings(path, count)?;
        Ok(are_accepted)
    }

    fn report_file<T: Tree, F: Replace>(
        &mut self,
        job: Job<'a>,
        tree: &T,
        files: &mut F,
        path: &str,
    ) -> Result<bool, Failure<A>> {
        if job.lists_files {
            self.tally.visited = self.tally.visited.saturating_add(1);
            if self.job.quiet {
                return Ok(false);
            }
            let mut line = String::new(self.alloc);
            self.push_file(&mut line, path, '\n')?;
            write_bytes(self.out, line.as_bytes())?;
            return Ok(false);
        }
        let bytes = match tree.bytes(self.alloc, path) {
            Ok(bytes) => bytes,
            Err(why) => return self.report_unread(path, why),
        };
        match crate::rattle_std::str::from_utf8(bytes.as_slice()) {
            Ok(source) => self.report_source(job, files, path, source),
            Err(error) => self.report_unread(path, PathError::NotUtf8(error.valid_up_to())),
        }
    }

    fn report_visit<T: Tree, F: Replace>(
        &mut self,
        job: Job<'a>,
        tree: &T,
        files: &mut F,
        visit: Visit<A>,
    ) -> Result<bool, Failure<A>> {
        match visit {
            Visit::File(path) => self.report_file(job, tree, files, path.as_str()),
            Visit::Failed(path, why) => self.report_unread(path.as_str(), why),
        }
    }

    fn report_files<T: Tree, F: Replace>(
        &mut self,
        tree: &T,
        files: &mut F,
        walk: &mut Walk<A>,
        selection: Selection<'_>,
    ) -> Result<bool, Failure<A>> {
        let job = self.job;
        let mut are_accepted = true;
        for _ in 0..u64::MAX {
            match walk.next(self.alloc, selection, tree) {
                Ok(None) => return Ok(are_accepted),
                Ok(Some(visit)) => {
                    let is_accepted = self.report_visit(job, tree, files, visit)?;
                    are_accepted = both(is_accepted, are_accepted);
                }
                Err(WalkError::OutOfMemory) => return Err(Failure::Memory),
                Err(WalkError::TooManyDirectories) => break,
            }
        }
        Err(Failure::TooManyDirectories)
    }
}

fn run_walk<A: Allocator + Copy, T: Tree, W: Write, E: Write, F: Replace>(
    call: &mut Call<'_, '_, '_, A, W, E>,
    selection: Selection<'_>,
    tree: &T,
    files: &mut F,
    paths: &mut Vec<String<A>, A>,
) -> Result<u8, Failure<A>> {
    let (alloc, job, has_paths) = (call.alloc, call.job, !paths.is_empty());
    let mut walk = Walk::of_paths(alloc, paths)?;
    let are_accepted = match call.report_files(tree, files, &mut walk, selection) {
        Ok(are_accepted) => are_accepted,
        Err(Failure::Closed) if job.mode == Mode::Fix => return Err(Failure::Write),
        Err(failure) => return Err(failure),
    };
    if job.stats {
        call.print_totals()?;
    }
    if has_paths && call.tally.visited == 0 {
        return Err(Failure::said(alloc, "there was no file to read"));
    }
    if call.tally.errors > 0 {
        return Ok(2);
    }
    Ok(job.status(call.tally.findings, are_accepted))
}

fn run_call<A: Allocator + Copy, T: Tree, W: Write, E: Write, F: Replace>(
    call: &mut Call<'_, '_, '_, A, W, E>,
    args: &Args<'_, A>,
    tree: &T,
    files: &mut F,
    paths: &mut Vec<String<A>, A>,
) -> Result<u8, Failure<A>> {
    let extensions = extensions_of(call.alloc, args)?;
    let excludes = args.all(call.alloc, "--exclude")?;
    let selection = Selection {
        all: args.has("--all"),
        extensions: extensions.as_slice(),
        excludes: excludes.as_slice(),
    };
    run_walk(call, selection, tree, files, paths)
}

fn run_options<A: Allocator + Copy, T: Tree, W: Write, E: Write, F: Replace>(
    alloc: A,
    args: &Args<'_, A>,
    console: Console<'_, '_, W, E>,
    tree: &T,
    files: &mut F,
) -> Result<u8, Failure<A>> {
    let style = style_of(alloc, args, tree)?;
    let (finds, allowed) = (args.all(alloc, "--find")?, args.all(alloc, "--allow")?);
    let numbers = integers_of(alloc, args.all(alloc, "--number")?.as_slice())?;
    let kinds = kinds_of(alloc, args.last("--only").unwrap_or(""))?;
    let lists = Lists {
        finds: finds.as_slice(),
        numbers: numbers.as_slice(),
        allowed: allowed.as_slice(),
        kinds: kinds.as_slice(),
    };
    let Console {
        lacks_input,
        has_colors,
        out,
        err,
    } = console;
    let job = Job::of(args, lists, style, has_colors);
    let mut paths = paths_of(alloc, args, tree, lacks_input || job.lists_files)?;
    let mut call = Call {
        alloc,
        job,
        out,
        err,
        tally: Tally::none(),
    };
    run_call(&mut call, args, tree, files, &mut paths)
}

fn parse_and_run<A: Allocator + Copy, T: Tree, W: Write, E: Write, F: Replace>(
    alloc: A,
    words: &[String<A>],
    console: Console<'_, '_, W, E>,
    tree: &T,
    files: &mut F,
) -> Result<u8, Failure<A>> {
    let args = Args::parse(alloc, words)?;
    if args.mode() == Mode::Page {
        write_bytes(console.out, page_of(alloc, &args)?.as_bytes())?;
        return Ok(0);
    }
    run_options(alloc, &args, console, tree, files)
}

pub fn run_with_arguments<A: Allocator + Copy, T: Tree, W: Write, E: Write, F: Replace>(
    alloc: A,
    args: &[String<A>],
    console: Console<'_, '_, W, E>,
    tree: &T,
    files: &mut F,
) -> Ending<Failure<A>> {
    let words = match args {
        [_, words @ ..] => words,
        [] => return Ending::Failed(Failure::NoArguments),
    };
    match parse_and_run(alloc, words, console, tree, files) {
        Ok(0) => Ending::Done,
        Ok(1) => Ending::FoundBad,
        Ok(_) => Ending::Reported,
        Err(Failure::Closed) => Ending::Closed,
        Err(failure) => Ending::Failed(failure),
    }
}
