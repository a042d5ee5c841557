//! Tests `BufReader` of `rattle_std`: the chunks that it reads, and its lines.

use crate::failing::Failing;
use crate::fakes::{text, told, Script, Step};
use crate::rattle_std::alloc::{Allocator, Global};
use crate::rattle_std::io::{BufRead, BufReader, ErrorKind, Read, Result};
use crate::rattle_std::string::String;
use crate::rattle_std::vec::Vec;

fn reader<R: Read>(inner: R) -> BufReader<R, Global> {
    BufReader::new(Global, inner).unwrap_or_else(|_| panic!("no memory"))
}

fn piece<A: Allocator>(piece: Result<Vec<u8, A>>) -> std::string::String {
    match piece {
        Ok(piece) => format!("{:?}", text(&piece)),
        Err(error) => told::<()>(Err(error)),
    }
}

fn line<A: Allocator>(line: Result<String<A>>) -> std::string::String {
    match line {
        Ok(line) => format!("{line:?}"),
        Err(error) => told::<()>(Err(error)),
    }
}

/// Shows the pieces between line ends, separated by spaces.
fn split(bytes: &[u8]) -> std::string::String {
    let pieces = reader(bytes).split(Global, b'\n').map(piece);
    pieces.collect::<std::vec::Vec<_>>().join(" ")
}

fn lines(bytes: &[u8]) -> std::string::String {
    let lines = reader(bytes).lines(Global).map(line);
    lines.collect::<std::vec::Vec<_>>().join(" ")
}

#[test]
fn ends() {
    for (all, pieces, rows) in [
        ("", r"", r""),
        ("a", r#""a""#, r#""a""#),
        ("a\n", r#""a""#, r#""a""#),
        ("a\nb", r#""a" "b""#, r#""a" "b""#),
        ("\n\n", r#""" """#, r#""" """#),
        ("\na", r#""" "a""#, r#""" "a""#),
        ("a\r\n", r#""a\r""#, r#""a""#),
        ("a\r", r#""a\r""#, r#""a\r""#),
        ("\r\n\r", r#""\r" "\r""#, r#""" "\r""#),
        ("a\r\r\nb\rc\n", r#""a\r\r" "b\rc""#, r#""a\r" "b\rc""#),
    ] {
        assert_eq!(split(all.as_bytes()), pieces, "split of {all:?}");
        assert_eq!(lines(all.as_bytes()), rows, "lines of {all:?}");
    }
}

#[test]
fn a_line_that_is_no_text() {
    let told = lines(b"a\n\xff\nb");
    assert_eq!(told, r#""a" Err(InvalidData, None) "b""#);
}

#[test]
fn failures_in_the_middle() {
    let steps = [
        Step::Pass(3),
        Step::Pass(2),
        Step::Fail(ErrorKind::NotFound),
        Step::Pass(2),
        Step::Fail(ErrorKind::Interrupted),
        Step::Pass(3),
    ];
    let mut script = Script::new(&steps, b"ab\ncd\nef\ngh");
    let pieces = reader(&mut script).split(Global, b'\n').map(piece);
    let told = pieces.collect::<std::vec::Vec<_>>().join(" ");
    // The bytes of a piece that were read before the failure are lost.
    assert_eq!(told, r#""ab" Err(NotFound, None) "" "ef" "gh""#);
    assert_eq!(script.asked(), [8192; 9]);
}

#[test]
fn failing_memory() {
    let failing = Failing::new(Global);
    failing.fail_from_to(1, 1);
    let failed = BufReader::new(&failing, b"abc".as_slice()).err();
    assert_eq!(
        failed.map(|error| error.kind()),
        Some(ErrorKind::OutOfMemory)
    );
    failing.stop_failing();

    let mut pieces = reader(b"a\nb\nc\nd\n".as_slice()).split(&failing, b'\n');
    assert_eq!(pieces.next().map(piece).as_deref(), Some("\"a\""));
    failing.fail_from_to(1, 1);
    let failed = pieces.next().map(piece);
    assert_eq!(failed.as_deref(), Some("Err(OutOfMemory, None)"));
    for _ in 0..3 {
        assert!(pieces.next().is_none());
    }
    failing.stop_failing();

    let mut rows = reader(b"a\nb\nc\nd\n".as_slice()).lines(&failing);
    assert_eq!(rows.next().map(line).as_deref(), Some("\"a\""));
    failing.fail_from_to(1, 1);
    let failed = rows.next().map(line);
    assert_eq!(failed.as_deref(), Some("Err(OutOfMemory, None)"));
    for _ in 0..3 {
        assert!(rows.next().is_none());
    }
    assert_eq!(failing.blocks_in_use(), 0);
}
