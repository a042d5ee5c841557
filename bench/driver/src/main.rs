//! Runs the same works with this repository's libraries and with others. bench/run builds and calls it.
//!
//! - `driver names` prints each corpus with the works that run on it.
//! - `driver check BYTES` compares the sums of works with the same weights.
//! - `driver text CORPUS BYTES` prints a corpus.
//! - `driver once CORPUS WORK BYTES` runs one work once, in the function `measured`, and prints the corpus's number of bytes and
//!   the sum.
//! - `driver time CORPUS WORK BYTES` also prints the microseconds of processor time.
//! - `driver tree WORK FOLDER..` runs a work for sources on each file of folders, and prints the number of bytes and the sum.
//!
//! Each call first runs the works on texts with known sums.

mod corpus;
mod files;
mod known;
mod others;
mod package;
mod weight;
mod works;

use corpus::{Corpus, Form};
use std::hint::black_box;
use std::io::Write;
use std::process::ExitCode;
use works::Work;

/// Runs the work. Callgrind counts the instructions inside this function.
#[no_mangle]
#[inline(never)]
fn measured(work: &Work, corpus: &Corpus) -> u64 {
    (work.run)(black_box(corpus))
}

/// Checks that works that sum up the same quantity return the same sum on a corpus.
fn check_sums(works: &[Work], corpus: &Corpus) -> Result<(), String> {
    for work in works {
        let sum = measured(work, corpus);
        let Some(first) = works.iter().find(|other| other.sum == work.sum) else {
            continue;
        };
        let wanted = measured(first, corpus);
        if sum != wanted {
            let (corpus, work, first) = (corpus.name, work.name, first.name);
            return Err(format!("{corpus}: {work} makes {sum}, {first} {wanted}"));
        }
    }
    Ok(())
}

/// Checks the sums on every corpus of valid text.
fn check_all(size: usize) -> Result<(), String> {
    for (name, form) in corpus::all() {
        if !form.is_bad() {
            check_sums(works::of(form), &corpus::make(name, form, size))?;
        }
    }
    Ok(())
}

/// Prints each corpus and work. A line also has the form of the corpus, and whether the work is the package's.
fn print_names() {
    for (name, form) in corpus::all() {
        for work in works::of(form) {
            let whose = if work.is_ours() { "ours" } else { "other" };
            println!("{}\t{whose}\t{name}\t{}", form.word(), work.name);
        }
    }
}

/// Returns the name and form of a corpus.
fn named(name: &str) -> Result<(&'static str, Form), String> {
    corpus::all()
        .find(|(known, _)| *known == name)
        .ok_or_else(|| format!("no corpus {name}"))
}

/// Prints the texts of a corpus, one after another.
fn print_text(name: &str, size: usize) -> Result<(), String> {
    let (name, form) = named(name)?;
    let corpus = corpus::make(name, form, size);
    let written = std::io::stdout().write_all(corpus.text.as_bytes());
    written.map_err(|error| error.to_string())
}

/// Returns the work with this name, and the corpus with this name and size.
fn found(name: &str, work_name: &str, size: usize) -> Result<(&'static Work, Corpus), String> {
    let (name, form) = named(name)?;
    let work = works::of(form)
        .iter()
        .find(|work| work.name == work_name)
        .ok_or_else(|| format!("no work {work_name} on {name}"))?;
    Ok((work, corpus::make(name, form, size)))
}

extern "C" {
    /// The C library's function, which returns the processor time of this process in microseconds.
    fn clock() -> i64;
}

/// Returns the processor time of this process up to now, in microseconds.
fn processor_time() -> i64 {
    // SAFETY: `clock` has no parameters, and doesn't write to memory of this program.
    unsafe { clock() }
}

/// Prints the corpus's number of bytes and the sum, and the microseconds if the work is timed.
fn run_once(work: &Work, corpus: &Corpus, is_timed: bool) {
    let before = processor_time();
    let sum = measured(work, corpus);
    let time = processor_time() - before;
    let spent = is_timed.then(|| format!(" {time}")).unwrap_or_default();
    println!("{} {sum}{spent}", corpus.text.len());
}

/// Runs a work for sources on each file of the folders, and prints the number of bytes and the sum.
fn run_tree(name: &str, folders: &[&str]) -> Result<(), String> {
    let works = works::of(Form::Source);
    let work = works.iter().find(|work| work.name == name);
    let work = work.ok_or_else(|| format!("no work {name} on sources"))?;
    let (mut bytes, mut sum) = (0, 0_u64);
    let read = files::each_in(folders, |text| {
        let corpus = Corpus {
            name: "a file",
            ends: vec![text.len()],
            text,
        };
        bytes += corpus.text.len();
        sum = sum.wrapping_add(measured(work, &corpus));
    });
    read.map_err(|error| error.to_string())?;
    println!("{bytes} {sum}");
    Ok(())
}

const USAGE: &str =
    "names | check BYTES | text CORPUS BYTES | once|time CORPUS WORK BYTES | tree WORK FOLDER..";

fn number(word: &str) -> Result<usize, String> {
    word.parse().map_err(|error| format!("{word}: {error}"))
}

fn run() -> Result<(), String> {
    let arguments: Vec<String> = std::env::args().skip(1).collect();
    let words: Vec<&str> = arguments.iter().map(String::as_str).collect();
    known::check()?;
    match words.as_slice() {
        ["names"] => print_names(),
        ["check", size] => check_all(number(size)?)?,
        ["text", corpus, size] => print_text(corpus, number(size)?)?,
        ["tree", work, folders @ ..] => run_tree(work, folders)?,
        [verb @ ("once" | "time"), corpus, work, size] => {
            let (work, corpus) = found(corpus, work, number(size)?)?;
            run_once(work, &corpus, *verb == "time");
        }
        _ => return Err(USAGE.to_string()),
    }
    Ok(())
}

fn main() -> ExitCode {
    match run() {
        Ok(()) => ExitCode::SUCCESS,
        Err(message) => {
            eprintln!("driver: {message}");
            ExitCode::FAILURE
        }
    }
}
