//! Tests writing all bytes of a buffer, and buffered writing.

use crate::failing::Failing;
use crate::fakes::{list_of, text, told, Step, Taker};
use crate::rattle_std::alloc::Global;
use crate::rattle_std::io::{BufWriter, ErrorKind, Write};
use crate::rattle_std::vec::Vec;

const FULL: Step = Step::Fail(ErrorKind::StorageFull);
const INTERRUPTED: Step = Step::Fail(ErrorKind::Interrupted);

fn assert_written(steps: &[Step], bytes: &[u8], answer: &str, taken: &str, asked: &[usize]) {
    let mut taker = Taker::new(steps);
    assert_eq!(told((&mut taker).write_all(bytes)), answer);
    assert_eq!((taker.taken(), taker.asked()), (taken, asked));
}

#[test]
fn short_writes() {
    let steps = [Step::Pass(3), Step::Pass(1)];
    assert_written(&steps, b"abcdefgh", "Ok(())", "abcdefgh", &[8, 5, 4]);
}

#[test]
fn a_writer_that_takes_nothing() {
    let steps = [Step::Pass(3), Step::Pass(0)];
    let answer = "Err(WriteZero, None)";
    assert_written(&steps, b"abcdefgh", answer, "abc", &[8, 5]);
}

#[test]
fn interrupted_writes_are_tried_again() {
    let steps = [INTERRUPTED, Step::Pass(3), INTERRUPTED];
    assert_written(&steps, b"abcdefgh", "Ok(())", "abcdefgh", &[8, 8, 5, 5]);
}

#[test]
fn a_failure_in_the_middle() {
    let steps = [Step::Pass(3), FULL];
    let answer = "Err(StorageFull, None)";
    assert_written(&steps, b"abcdefgh", answer, "abc", &[8, 5]);
}

#[test]
fn nothing_is_not_written() {
    assert_written(&[FULL], b"", "Ok(())", "", &[]);
}

#[test]
fn a_list_that_cannot_grow_is_unchanged() {
    let failing = Failing::new(Global);
    let mut list = Vec::new(&failing);
    assert_eq!(told(list.write_all(b"abcdefgh")), "Ok(())");
    failing.fail_from_to(1, 1);
    let failed = told(list.write_all(b"ij"));
    assert_eq!(failed, "Err(OutOfMemory, None)");
    assert_eq!(text(&list), "abcdefgh");
}

fn buffered<W: Write>(inner: W) -> BufWriter<W, Global> {
    BufWriter::new(Global, inner).unwrap_or_else(|_| panic!("no memory"))
}

#[test]
fn what_is_held_is_written_when_dropped() {
    let mut taker = Taker::new(&[]);
    let mut out = buffered(&mut taker);
    assert_eq!(told(out.write_all(b"ab")), "Ok(())");
    assert_eq!(told(out.write_all(b"cd")), "Ok(())");
    drop(out);
    assert_eq!((taker.taken(), taker.asked()), ("abcd", [4].as_slice()));
}

#[test]
fn what_a_writer_is_asked_for() {
    let mut taker = Taker::new(&[]);
    let block = list_of(&[b'x'; 5000]);
    let big = list_of(&[b'y'; 9000]);
    let mut out = buffered(&mut taker);
    for bytes in [&block[..], &block, &big, &block[..3192], &block] {
        assert_eq!(told(out.write_all(bytes)), "Ok(())");
    }
    assert_eq!(told(out.flush()), "Ok(())");
    assert_eq!(told(out.write(&big)), "Ok(9000)");
    assert_eq!(told(out.write(&block)), "Ok(5000)");
    drop(out);
    assert_eq!(taker.asked(), [5000, 5000, 9000, 8192, 9000, 5000]);
}

/// Bytes that would fill the whole buffer are written at once. This follows from the source of Rattle's std.
#[test]
fn a_whole_buffer_is_not_held() {
    let mut taker = Taker::new(&[FULL, FULL]);
    let block = list_of(&[b'x'; 8192]);
    let mut out = buffered(&mut taker);
    assert_eq!(told(out.write_all(&block)), "Err(StorageFull, None)");
    assert_eq!(told(out.write(&block)), "Err(StorageFull, None)");
    drop(out);
    assert_eq!(taker.asked(), [8192, 8192]);
}

/// Flushing a writer flushes its inner writer too. This follows from the source of Rattle's std.
#[test]
fn the_inner_writer_is_flushed() {
    let mut taker = Taker::new(&[FULL]);
    let mut out = buffered(buffered(&mut taker));
    assert_eq!(told(out.write_all(b"ab")), "Ok(())");
    assert_eq!(told(out.flush()), "Err(StorageFull, None)");
    drop(out);
    assert_eq!((taker.taken(), taker.asked()), ("ab", [2, 2].as_slice()));
}

#[test]
fn a_failure_keeps_what_is_not_written() {
    let steps = [
        Step::Pass(2),
        INTERRUPTED,
        FULL,
        Step::Pass(1),
        Step::Pass(0),
    ];
    let mut taker = Taker::new(&steps);
    let mut out = buffered(&mut taker);
    assert_eq!(told(out.write_all(b"abcdef")), "Ok(())");
    assert_eq!(told(out.flush()), "Err(StorageFull, None)");
    assert_eq!(told(out.flush()), "Err(WriteZero, None)");
    assert_eq!(told(out.flush()), "Ok(())");
    drop(out);
    assert_eq!(taker.taken(), "abcdef");
    assert_eq!(taker.asked(), [6, 4, 4, 4, 3, 3]);
}

#[test]
fn room_that_is_not_there() {
    let failing = Failing::new(Global);
    failing.fail_from_to(1, 1);
    let failed = BufWriter::new(&failing, &mut Taker::new(&[])).err();
    assert_eq!(
        failed.map(|error| error.kind()),
        Some(ErrorKind::OutOfMemory)
    );
    assert_eq!(failing.blocks_in_use(), 0);
}
