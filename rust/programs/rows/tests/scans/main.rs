//! Runs `rl_scan` on a small directory in memory, and compares its output with `calls.txt`.
//!
//! `calls.txt` has a line `== ARGUMENTS` for each call. Below this line are the files that the call rewrites (`> PATH`, the new
//! text, `--`), standard output, a line `-- STATUS ERROR` with the exit status and the error that ends the call, and the other lines
//! of standard error. Two marks may precede the arguments. `^` makes the output accept colours. `@20` closes the output after 20
//! bytes, and `!20` makes it fail after 20 bytes.

mod tree;

use navyspindle_programs::rattle_std::alloc::{Allocator, Global};
use navyspindle_programs::rattle_std::io::{self, ErrorKind, Write};
use navyspindle_programs::rattle_std::string::String as Text;
use navyspindle_programs::rattle_std::vec::Vec as Bytes;
use navyspindle_programs::rl_files::MemoryReplacements;
use navyspindle_programs::rl_scan::{self, Console};
use navyspindle_rows::failing::Failing;
use tree::{Sample, UNWRITABLE};

const CALLS: &[u8] = include_bytes!("calls.txt");

/// A stream that fails after `left` bytes.
struct Stream {
    held: Vec<u8>,
    left: usize,
    kind: ErrorKind,
}

impl Stream {
    fn failing_after(left: usize, kind: ErrorKind) -> Stream {
        Stream {
            held: Vec::new(),
            left,
            kind,
        }
    }

    fn endless() -> Stream {
        Stream::failing_after(usize::MAX, ErrorKind::Other)
    }
}

impl Write for Stream {
    fn write(&mut self, buf: &[u8]) -> io::Result<usize> {
        if self.left == 0 {
            return Err(self.kind.into());
        }
        let count = buf.len().min(self.left);
        self.held.extend_from_slice(&buf[..count]);
        self.left -= count;
        Ok(count)
    }

    fn flush(&mut self) -> io::Result<()> {
        Ok(())
    }
}

/// The result of a call. `replaced` has the paths and the new contents of the files that the call rewrites.
#[derive(PartialEq)]
struct Answer {
    replaced: Vec<u8>,
    out: Vec<u8>,
    err: Vec<u8>,
    status: u8,
    ending: String,
}

/// Runs the program with the arguments, of which the first is its name.
fn call<A: Allocator + Copy>(
    alloc: A,
    words: &[Text<A>],
    has_colors: bool,
    mut out: Stream,
    mut err: Stream,
) -> Answer {
    let mut files = MemoryReplacements {
        alloc: Global,
        unwritable: &UNWRITABLE,
        handed: Bytes::new(Global),
    };
    let ending = rl_scan::run_with_arguments(
        alloc,
        words,
        Console {
            lacks_input: false,
            has_colors,
            out: &mut out,
            err: &mut err,
        },
        &Sample,
        &mut files,
    );
    let mut replaced = Vec::new();
    for file in files.handed.iter() {
        replaced.extend(format!("> {}\n", file.path).bytes());
        replaced.extend(file.new.iter().chain(b"--\n"));
    }
    Answer {
        replaced,
        out: out.held,
        err: err.held,
        status: ending.status(),
        ending: ending.to_string(),
    }
}

/// Returns the arguments of a line of `calls.txt` without its marks, after the program's name.
fn words_of<A: Allocator + Copy>(alloc: A, line: &str) -> Vec<Text<A>> {
    let words = line.split(' ').filter(|_| !line.is_empty());
    ["rl_scan"]
        .into_iter()
        .chain(words)
        .map(|word| Text::from_str(alloc, word).unwrap())
        .collect()
}

/// Returns the output that the first mark requests, and the arguments after the mark.
fn out_and_words(line: &str) -> (Stream, &str) {
    let (first, rest) = line.split_once(' ').unwrap_or((line, ""));
    let kind = match first.chars().next() {
        Some('@') => ErrorKind::BrokenPipe,
        Some('!') => ErrorKind::StorageFull,
        _ => return (Stream::endless(), line),
    };
    match first[1..].parse() {
        Ok(left) => (Stream::failing_after(left, kind), rest),
        Err(_) => (Stream::endless(), line),
    }
}

/// Runs the call of a line, and returns the part of `calls.txt` for this call.
fn part_of(line: &str) -> Vec<u8> {
    let plain = line.strip_prefix("^ ");
    let (out, words) = out_and_words(plain.unwrap_or(line));
    let words = words_of(Global, words);
    let answer = call(Global, &words, plain.is_some(), out, Stream::endless());
    let head = format!("== {line}\n").into_bytes();
    let end = format!("-- {} {}\n", answer.status, answer.ending).into_bytes();
    [head, answer.replaced, answer.out, end, answer.err].concat()
}

#[test]
fn calls() {
    let lines: Vec<&[u8]> = CALLS.split_inclusive(|byte| *byte == b'\n').collect();
    let blocks: Vec<_> = lines
        .chunk_by(|_, next| !next.starts_with(b"== "))
        .collect();
    assert!(blocks.len() > 300, "{} calls", blocks.len());
    let mut wrong = String::new();
    for block in blocks {
        let expected = block.concat();
        let line = std::str::from_utf8(&block[0][3..]).unwrap();
        let found = part_of(line.strip_suffix('\n').unwrap());
        if found != expected {
            let [found, expected] =
                [found, expected].map(|it| String::from_utf8_lossy(&it).into_owned());
            wrong += &format!("expected {expected}found    {found}\n");
        }
    }
    assert!(wrong.is_empty(), "{wrong}");
}

/// Returns the arguments of the calls whose lines have no mark.
fn plain_lines() -> Vec<&'static str> {
    let lines = CALLS.split(|byte| *byte == b'\n');
    let lines: Vec<&str> = lines
        .filter_map(|line| std::str::from_utf8(line.strip_prefix(b"== ")?).ok())
        .filter(|line| !line.starts_with(['^', '@', '!']))
        .collect();
    assert!(lines.len() > 300, "{} calls", lines.len());
    lines
}

/// Runs the call of a line, in which the allocations from number `first` to number `last` fail. Returns the number of requested
/// allocations too. No block may be left.
fn without_memory(line: &str, first: u64, last: u64) -> (Answer, u64) {
    let failing = &Failing::new(Global);
    let words = words_of(failing, line);
    let blocks = failing.blocks_in_use();
    failing.fail_from_to(first, last);
    let answer = call(failing, &words, false, Stream::endless(), Stream::endless());
    let requested = failing.stop_failing();
    assert_eq!(failing.blocks_in_use(), blocks, "{line}: {first}..{last}");
    (answer, requested)
}

/// In each call, each of the first 400 allocations fails, alone and with all later ones. The call then ends with an error of
/// memory after a part of its output, skips a file with such an error, or answers as with memory.
#[test]
fn each_allocation_fails() {
    for line in plain_lines() {
        let (whole, requested) = without_memory(line, u64::MAX, u64::MAX);
        for first in 1..=requested.min(400) {
            for last in [first, u64::MAX] {
                let (answer, _) = without_memory(line, first, last);
                let said = String::from_utf8_lossy(&answer.err) + answer.ending.as_str();
                let is_part = whole.out.starts_with(&answer.out)
                    && whole.replaced.starts_with(&answer.replaced);
                let is_told = answer.status == 2
                    && (said.contains("out of memory") || line.contains("--no-messages"))
                    && (is_part || answer.ending != "rl_scan: out of memory");
                assert!(is_told || answer == whole, "{line}: {first}..{last}");
            }
        }
    }
}

/// In each call, each stream fails after each number of bytes. The call ends there, with an error unless the output is closed.
#[test]
fn each_write_fails() {
    for line in plain_lines() {
        let words = words_of(Global, line);
        let whole = call(Global, &words, false, Stream::endless(), Stream::endless());
        for (kind, left) in [ErrorKind::BrokenPipe, ErrorKind::StorageFull]
            .into_iter()
            .flat_map(|kind| (0..whole.out.len()).map(move |left| (kind, left)))
        {
            let out = Stream::failing_after(left, kind);
            let answer = call(Global, &words, false, out, Stream::endless());
            assert_eq!(answer.out, whole.out[..left], "{line}: {left}");
            assert!(whole.err.starts_with(&answer.err), "{line}: {left}");
            assert!(
                whole.replaced.starts_with(&answer.replaced),
                "{line}: {left}"
            );
            // `--fix` ends with an error if the remaining files aren't rewritten.
            let statuses: &[u8] = match kind {
                ErrorKind::BrokenPipe if line.contains("--fix") => &[0, 2],
                ErrorKind::BrokenPipe => &[0],
                _ => &[2],
            };
            assert!(statuses.contains(&answer.status), "{line}: {left}");
        }
        for left in 0..whole.err.len() {
            let err = Stream::failing_after(left, ErrorKind::StorageFull);
            let answer = call(Global, &words, false, Stream::endless(), err);
            assert_eq!(answer.err, whole.err[..left], "{line}: {left}");
            assert!(whole.out.starts_with(&answer.out), "{line}: {left}");
            assert_eq!(answer.status, 2, "{line}: {left}");
        }
    }
}
