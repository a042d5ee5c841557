// Rendered from crates/rl_scan/src/args.rt by tools/render, which erases contracts: change that file, and render again.
//! Parses the arguments of a call.

use crate::rattle_std::prelude::{String, Vec, format};
use crate::rl_scan::checks::{check_command_line, check_value};
use crate::rl_scan::failure::{Done, Failure};
use crate::rl_scan::modes::{Mode, SELECTING};
use crate::rl_scan::options::{OPTIONS, OptionRow, row_lettered, row_named};
use crate::rl_scan::style::is_near;
use crate::rl_files::visible_text;
use crate::rattle_std::alloc::{AllocError, Allocator, Global};

const RIVALS: [&[&str]; 4] = [
    &["--count", "--files-with-matches", "--quiet"],
    &["--lines", "--bytes"],
    &FORMS,
    &["--help", "--version", "--rules", "--generate", "--files"],
];

const FORMS: [&str; 2] = ["--json", "--format"];

const ALL_OPTIONS: &str = "rl_scan --help lists all options";

#[derive(Clone, Copy)]
pub(crate) struct Given<'a> {
    pub name: &'static str,
    pub value: &'a str,
}

pub(crate) struct Args<'a, A: Allocator = Global> {
    pub given: Vec<Given<'a>, A>,
    pub paths: Vec<&'a str, A>,
}

#[derive(Clone, Copy)]
enum Next {
    Word,
    Value(OptionRow),
    Path,
}

pub(crate) fn is_among(words: &[&str], word: &str) -> bool {
    words.contains(&word)
}

pub(crate) fn without_mark(text: &str) -> &str {
    text.strip_suffix('\0').unwrap_or(text)
}

fn option_part(word: &str) -> &str {
    let (part, _) = word.split_once('=').unwrap_or((word, ""));
    part
}

fn near_option(word: &str) -> Option<&'static str> {
    let part = option_part(word);
    let mut near: Option<&'static str> = None;
    for row in &OPTIONS {
        if row.name != "--" && is_near(part, row.name) {
            if row.name.len().saturating_sub(1) <= part.len() {
                return Some(row.name);
            }
            if near.is_none() {
                near = Some(row.name);
            }
        }
    }
    near
}

fn meant<A: Allocator + Copy>(alloc: A, word: &str) -> Result<String<A>, AllocError> {
    match near_option(word) {
        Some(name) => format!(in alloc; "did you mean '{name}'?"),
        None => String::from_str(alloc, ALL_OPTIONS),
    }
}

fn unknown_letter<A: Allocator + Copy>(
    alloc: A,
    word: &str,
    letter: char,
) -> Result<Failure<A>, AllocError> {
    let hint = if word.len() > 2 {
        meant(alloc, format!(in alloc; "-{word}")?.as_str())?
    } else {
        String::from_str(alloc, ALL_OPTIONS)?
    };
    let text = format!(in alloc; "{letter}")?;
    let shown = visible_text(alloc, text.as_str())?;
    if word.len() == text.len().saturating_add(1) {
        return Ok(Failure::Said(format!(in alloc; "unknown option '-{shown}': {hint}")?));
    }
    let inside = visible_text(alloc, word)?;
    Ok(Failure::Said(format!(in alloc; "unknown option '-{shown}' in '{inside}': {hint}")?))
}

fn unknown_word<A: Allocator + Copy>(alloc: A, word: &str) -> Result<Failure<A>, AllocError> {
    let shown = visible_text(alloc, word)?;
    let hint = meant(alloc, word)?;
    Ok(Failure::Said(format!(in alloc; "unknown option '{shown}': {hint}")?))
}

fn check_text<A: Allocator + Copy>(alloc: A, word: &str) -> Done<A> {
    if word.ends_with('\0') {
        let shown = visible_text(alloc, without_mark(word))?;
        return Err(Failure::Said(format!(in alloc;
            "the argument '{shown}' is neither UTF-8 nor a path"
        )?));
    }
    Ok(())
}

fn is_word_of_letters(word: &str) -> bool {
    if !word.starts_with("--") && !word.contains('=') {
        return true;
    }
    let Some(letter) = word.get(1..).unwrap_or("").chars().next() else {
        return false;
    };
    row_lettered(letter).is_some_and(|row| row.has_value())
}

impl<'a, A: Allocator + Copy> Args<'a, A> {
    fn last_of(&self, names: &[&str]) -> Option<Given<'a>> {
        let mut last_first = self.given.as_slice().iter().rev();
        last_first.find(|it| is_among(names, it.name)).copied()
    }

    pub(crate) fn last(&self, name: &str) -> Option<&'a str> {
        Some(self.last_of(&[name])?.value)
    }

    pub(crate) fn has_any(&self, names: &[&str]) -> bool {
        self.last_of(names).is_some()
    }

    pub(crate) fn has(&self, name: &str) -> bool {
        for rivals in &RIVALS {
            if is_among(rivals, name) {
                return self.last_of(rivals).is_some_and(|given| given.name == name);
            }
        }
        self.has_any(&[name])
    }

    pub(crate) fn all(&self, alloc: A, name: &str) -> Result<Vec<&'a str, A>, AllocError> {
        let mut values = Vec::new(alloc);
        for given in self.given.as_slice() {
            if given.name == name {
                values.push(given.value)?;
            }
        }
        Ok(values)
    }

    pub(crate) fn form(&self) -> &'a str {
        match self.last_of(&FORMS) {
            Some(given) if given.name == "--json" => "json",
            Some(given) => given.value,
            None => "text",
        }
    }

    pub(crate) fn mode(&self) -> Mode {
        let row = SELECTING.iter().find(|row| self.has(row.0));
        row.map(|row| row.1).unwrap_or(Mode::List)
    }

    fn conflict(&self, name: &str) -> Option<&'static str> {
        let exclusive = ["--bad", "--invisible", "--only"];
        let rewriting = ["--fix", "--check", "--diff"];
        if is_among(&exclusive, name) && self.has_any(&exclusive) {
            return Some("--bad, --invisible and --only can't be combined or repeated");
        }
        let finds = is_among(&["--bad", "--invisible"], name) && self.has_any(&["--find"])
            || name == "--find" && self.has_any(&["--bad", "--invisible"]);
        if finds {
            return Some("--bad and --invisible can't be used with -e, --find");
        }
        if is_among(&rewriting, name) && self.has_any(&rewriting) {
            return Some("--fix, --check and --diff can't be combined or repeated");
        }
        None
    }

    fn add(&mut self, alloc: A, row: &OptionRow, value: &'a str) -> Done<A> {
        if let Some(words) = self.conflict(row.name) {
            return Err(Failure::said(alloc, words));
        }
        check_value(alloc, row, value)?;
        let name = row.name;
        self.given.push(Given { name, value })?;
        Ok(())
    }

    fn add_letters(&mut self, alloc: A, word: &'a str) -> Result<Next, Failure<A>> {
        let mut letters = word.get(1..).unwrap_or("").chars();
        while let Some(letter) = letters.next() {
            let Some(row) = row_lettered(letter) else {
                return Err(unknown_letter(alloc, word, letter)?);
            };
            if row.has_value() {
                let joined = letters.as_str();
                if joined.is_empty() {
                    return Ok(Next::Value(row));
                }
                self.add(alloc, &row, joined)?;
                return Ok(Next::Word);
            }
            self.add(alloc, &row, "")?;
        }
        Ok(Next::Word)
    }

    fn add_option(&mut self, alloc: A, word: &'a str) -> Result<Next, Failure<A>> {
        check_text(alloc, word)?;
        if word == "--" {
            return Ok(Next::Path);
        }
        if let Some(row) = row_named(word) {
            if row.has_value() {
                return Ok(Next::Value(row));
            }
            self.add(alloc, &row, "")?;
            return Ok(Next::Word);
        }
        if let Some((name, value)) = word.split_once('=') {
            if let Some(row) = row_named(name) {
                if !row.has_value() {
                    return Err(Failure::Said(format!(in alloc; "{name} takes no value")?));
                }
                self.add(alloc, &row, value)?;
                return Ok(Next::Word);
            }
        }
        if is_word_of_letters(word) {
            return self.add_letters(alloc, word);
        }
        Err(unknown_word(alloc, word)?)
    }

    pub(crate) fn parse(alloc: A, words: &'a [String<A>]) -> Result<Args<'a, A>, Failure<A>> {
        let mut args = Args {
            given: Vec::new(alloc),
            paths: Vec::new(alloc),
        };
        let mut next = Next::Word;
        for it in words {
            let word = it.as_str();
            match next {
                Next::Value(row) => {
                    check_text(alloc, word)?;
                    args.add(alloc, &row, word)?;
                    next = Next::Word;
                }
                Next::Word if word != "-" && word.starts_with('-') => {
                    next = args.add_option(alloc, word)?;
                }
                Next::Word | Next::Path => args.paths.push(word)?,
            }
        }
        if let Next::Value(row) = next {
            let (name, expected) = (row.name, row.expected());
            return Err(Failure::Said(format!(in alloc; "{name} needs a value: {expected}")?));
        }
        check_command_line(alloc, &args)?;
        Ok(args)
    }
}
