//! Tests that a collection is unchanged after its growth fails.

use crate::failing::Failing;
use crate::rattle_std::alloc::{AllocError, AllocFailed, Global};
use crate::rattle_std::collections::{BTreeSet, HashMap};
use crate::rattle_std::io;
use crate::rattle_std::prelude::{format, vec};
use crate::rattle_std::string::String;
use crate::rattle_std::vec::Vec;
use core::fmt;

type Scant<'a> = &'a Failing<Global>;

fn scant() -> Failing<Global> {
    Failing::new(Global)
}

/// Creates a list of these items, while no allocation fails.
fn list_of<'a>(failing: Scant<'a>, items: &[u8]) -> Vec<u8, Scant<'a>> {
    Vec::from_slice(failing, items).unwrap_or_else(|_| panic!("no memory"))
}

/// Creates a text with a capacity of `room` bytes, while no allocation fails.
fn text_of<'a>(failing: Scant<'a>, text: &str, room: usize) -> String<Scant<'a>> {
    let mut made = String::with_capacity(failing, room).unwrap_or_else(|_| panic!("no memory"));
    made.push_str(text).unwrap_or_else(|_| panic!("no memory"));
    made
}

/// Calls `call` with each number below `calls`, and returns the numbers whose calls request an allocation. Panics if a call
/// fails.
fn asking(
    failing: Scant<'_>,
    calls: usize,
    mut call: impl FnMut(usize) -> bool,
) -> std::vec::Vec<usize> {
    let asks = |i: &usize| {
        failing.fail_from_to(1, 0);
        assert!(call(*i), "call {i} fails");
        failing.stop_failing() > 0
    };
    (0..calls).filter(asks).collect()
}

#[test]
fn lists_grow_at_the_same_calls() {
    let failing = scant();
    let mut list = Vec::new(&failing);
    let asks = asking(&failing, 100, |i| list.push(i as u32).is_ok());
    assert_eq!(asks, [0, 4, 8, 16, 32, 64]);

    let mut list = Vec::new(&failing);
    let large = asking(&failing, 20, |_| list.push([0_u8; 2000]).is_ok());
    assert_eq!(large, [0, 1, 2, 4, 8, 16]);

    let Ok(mut list) = Vec::with_capacity(&failing, 10) else {
        panic!("no memory")
    };
    let past_ten = asking(&failing, 50, |i| list.push(i).is_ok());
    assert_eq!(past_ten, [10, 20, 40]);

    let Ok(mut list) = Vec::with_capacity(&failing, 3) else {
        panic!("no memory")
    };
    let past_three = asking(&failing, 50, |i| list.push(i as u8).is_ok());
    assert_eq!(past_three, [3, 8, 16, 32]);

    let mut list = Vec::new(&failing);
    let pieces = asking(&failing, 40, |i| {
        list.extend_from_slice(&[1_u8; 40][..i]).is_ok()
    });
    assert_eq!(pieces, [1, 4, 6, 8, 11, 16, 23, 32]);
}

#[test]
fn texts_grow_at_the_same_calls() {
    let failing = scant();
    let mut text = String::new(&failing);
    let asks = asking(&failing, 100, |_| text.push('x').is_ok());
    assert_eq!(asks, [0, 8, 16, 32, 64]);

    let mut text = String::new(&failing);
    let wide = asking(&failing, 30, |_| text.push('\u{20ac}').is_ok());
    assert_eq!(wide, [0, 2, 5, 10, 21]);
}

#[test]
fn push() {
    let failing = scant();
    let mut list = Vec::new(&failing);
    for i in 0..4_u32 {
        assert!(list.push(i).is_ok());
    }
    failing.fail_from_to(1, 1);
    let back = list.push(9).map_err(|AllocFailed { value }| value);
    assert_eq!(back, Err(9));
    assert_eq!(*list, [0, 1, 2, 3]);
    assert!(list.push(9).is_ok());
    assert_eq!(*list, [0, 1, 2, 3, 9]);
}

#[test]
fn extend_from_slice() {
    let failing = scant();
    let mut list = Vec::new(&failing);
    assert!(list.extend_from_slice(&[1_u8, 2]).is_ok());
    failing.fail_from_to(1, 9);
    assert_eq!(list.extend_from_slice(&[3; 20]), Err(AllocError));
    assert_eq!(*list, [1, 2]);
    assert_eq!(list.extend_from_slice(&[3; 6]), Ok(()));
    assert_eq!(list.extend_from_slice(&[]), Ok(()));
    assert_eq!(*list, [1, 2, 3, 3, 3, 3, 3, 3]);
    assert_eq!(failing.stop_failing(), 1);

    failing.fail_from_to(1, 9);
    assert_eq!(Vec::<u8, _>::new(&failing).extend_from_slice(&[]), Ok(()));
    assert_eq!(failing.stop_failing(), 0);
}

#[test]
fn what_is_made_of_nothing_asks_for_nothing() {
    let failing = scant();
    failing.fail_from_to(1, 99);
    assert!(Vec::<u64, _>::with_capacity(&failing, 0).is_ok());
    assert!(Vec::<u64, _>::with_capacity(&failing, 1).is_err());
    assert!(Vec::from_slice(&failing, b"").is_ok());
    assert!(Vec::from_slice(&failing, b"a").is_err());
    assert!(vec![in &failing; 1_u8; 0].is_ok());
    assert!(vec![in &failing; 1_u8; 3].is_err());
    assert!(String::with_capacity(&failing, 0).is_ok());
    assert!(String::with_capacity(&failing, 1).is_err());
    assert!(String::from_str(&failing, "").is_ok());
    assert!(String::from_str(&failing, "a").is_err());
    assert_eq!(failing.stop_failing(), 5);
    assert_eq!(failing.blocks_in_use(), 0);
}

#[test]
fn what_no_block_can_hold_is_not_asked_for() {
    let failing = scant();
    failing.fail_from_to(1, 0);
    assert!(Vec::<u64, _>::with_capacity(&failing, usize::MAX).is_err());
    assert!(Vec::<u64, _>::with_capacity(&failing, usize::MAX / 16 + 1).is_err());
    assert!(Vec::<u8, _>::with_capacity(&failing, usize::MAX / 2 + 1).is_err());
    assert!(String::with_capacity(&failing, usize::MAX).is_err());
    assert_eq!(failing.stop_failing(), 0);
}

#[test]
fn texts() {
    let failing = scant();
    let mut text = text_of(&failing, "abcd", 4);
    failing.fail_from_to(1, 99);
    assert_eq!(text.push('e'), Err(AllocError));
    assert_eq!(text.push('\u{20ac}'), Err(AllocError));
    assert_eq!(text.push_str("efg"), Err(AllocError));
    assert_eq!(text.push_str(""), Ok(()));
    assert_eq!(text.as_str(), "abcd");
    assert_eq!(failing.stop_failing(), 3);
}

/// A value whose `fmt` writes half of its text and then fails.
struct Broken;

impl fmt::Display for Broken {
    fn fmt(&self, f: &mut fmt::Formatter<'_>) -> fmt::Result {
        f.write_str("half")?;
        Err(fmt::Error)
    }
}

#[test]
fn write_and_writeln() {
    let failing = scant();
    let mut text = text_of(&failing, "ab", 6);
    // The values are named because Rust joins literal arguments with the text when it compiles.
    let (word, number, rest) = ("cd", 123_456, "cdef");
    failing.fail_from_to(1, 99);
    assert_eq!(write!(text, "{word}-{number}"), Err(AllocError));
    assert_eq!(text.as_str(), "ab");
    assert_eq!(write!(text, "{rest}"), Ok(()));
    assert_eq!(text.as_str(), "abcdef");
    failing.stop_failing();

    let mut text = text_of(&failing, "ab", 2);
    assert_eq!(write!(text, "cd {Broken} ef"), Err(AllocError));
    assert_eq!(text.as_str(), "ab");
    let number = 5;
    assert_eq!(writeln!(text, "cd {number}"), Ok(()));
    assert_eq!(text.as_str(), "abcd 5\n");
}

#[test]
fn formats() {
    let failing = scant();
    let (number, word, more, nothing) = (5, "abcdefgh", "i", "");
    assert!(format!(in &failing; "cd {Broken} ef").is_err());
    failing.fail_from_to(1, 1);
    assert!(format!(in &failing; "{number}").is_err());
    failing.fail_from_to(2, 2);
    assert!(format!(in &failing; "{word}{more}").is_err());
    assert_eq!(failing.stop_failing(), 2);
    failing.fail_from_to(1, 9);
    assert!(format!(in &failing; "{nothing}").is_ok());
    assert_eq!(failing.blocks_in_use(), 0);

    failing.stop_failing();
    let text = text_of(&failing, "ab", 2);
    let padded = format!(in &failing; "[{text:>4}] [{text:-<3}] [{text:.1}] {text:?}");
    assert!(padded.is_ok_and(|padded| padded.as_str() == "[  ab] [ab-] [a] \"ab\""));
}

#[test]
fn room_stays() {
    let failing = scant();
    let mut text = text_of(&failing, "a\u{e9}b", 4);
    text.truncate(3);
    assert_eq!((text.len(), text.as_str()), (3, "a\u{e9}"));
    text.clear();
    failing.fail_from_to(1, 1);
    assert_eq!(text.push_str("abcd"), Ok(()));
    failing.stop_failing();

    let mut list = list_of(&failing, &[0; 40]);
    list.truncate(3);
    failing.fail_from_to(1, 1);
    assert_eq!(list.extend_from_slice(&[1; 37]), Ok(()));
    assert_eq!((list.pop(), list.len()), (Some(1), 39));
}

#[test]
fn blocks_that_are_held() {
    let failing = scant();
    {
        assert!(String::from_utf8(list_of(&failing, b"a\xff")).is_err());
        assert_eq!(failing.blocks_in_use(), 0);
        let good = String::from_utf8(list_of(&failing, b"a\xc3\xa9"));
        assert!(good.is_ok_and(|text| text.as_str() == "a\u{e9}"));
        assert_eq!(failing.blocks_in_use(), 0);
        let text = text_of(&failing, "ab", 2);
        let bytes = text_of(&failing, "abc", 3).into_bytes();
        assert_eq!(failing.blocks_in_use(), 2);
        let mut items = bytes.into_iter();
        assert_eq!(items.next(), Some(97));
        assert_eq!(failing.blocks_in_use(), 2);
        let rest = items.collect(&failing);
        assert!(rest.is_ok_and(|rest| *rest == *b"bc" && failing.blocks_in_use() == 2));
        assert_eq!(text.as_str(), "ab");
    }
    assert_eq!(failing.blocks_in_use(), 0);
}

/// Returns item number `i` of a sequence without repetitions, in an irregular order.
fn item(i: u32) -> u32 {
    i * 7919 % 2003
}

#[test]
fn sets() {
    let failing = scant();
    let mut set = BTreeSet::new(&failing);
    let mut failures = 0;
    for i in 0..2000 {
        failing.fail_from_to(1, u64::MAX);
        match set.insert(item(i)) {
            Ok(is_new) => assert!(is_new),
            Err(failed) => {
                failures += 1;
                assert_eq!(failed.value, item(i));
                for j in 0..i {
                    assert!(matches!(set.insert(item(j)), Ok(false)));
                }
                failing.stop_failing();
                assert!(matches!(set.insert(item(i)), Ok(true)));
            }
        }
        failing.stop_failing();
        assert!(matches!(set.insert(item(i)), Ok(false)));
    }
    // Allocations fail at the first item, at the six items at which the first row grows, and at some items at which a row is split.
    // Rattle's set allocates at other items.
    assert!(failures > 7);
    assert!(failing.blocks_in_use() > 0);
    drop(set);
    assert_eq!(failing.blocks_in_use(), 0);
}

#[test]
fn the_first_item_of_a_set() {
    let failing = scant();
    let mut set = BTreeSet::new(&failing);
    failing.fail_from_to(1, 1);
    assert!(matches!(set.insert(5), Err(AllocFailed { value: 5 })));
    assert!(matches!(set.insert(5), Ok(true)));
}

#[test]
fn maps() {
    let failing = scant();
    let mut map = HashMap::new(&failing);
    for i in 0..500 {
        failing.fail_from_to(1, u64::MAX);
        if let Err(failed) = map.insert(i, i + 1) {
            assert_eq!(failed.value, (i, i + 1));
            for j in 0..i {
                assert!(matches!(map.insert(j, j + 1), Ok(Some(had)) if had == j + 1));
            }
            failing.stop_failing();
            assert!(matches!(map.insert(i, i + 1), Ok(None)));
        }
    }
    assert_eq!(map.len(), 500);
    drop(map);
    assert_eq!(failing.blocks_in_use(), 0);
}

#[test]
fn errors() {
    let kind = io::Error::from(AllocError).kind();
    assert_eq!(kind, io::ErrorKind::OutOfMemory);
    assert_eq!(AllocError.to_string(), "memory allocation failed");
}

#[test]
fn items_without_a_size_need_no_block() {
    let failing = scant();
    failing.fail_from_to(1, u64::MAX);
    let mut list: Vec<(), Scant<'_>> = Vec::new(&failing);
    for _ in 0..3 {
        assert!(list.push(()).is_ok());
    }
    assert_eq!((list.len(), failing.blocks_in_use()), (3, 0));
    drop(list);
    assert_eq!(failing.blocks_in_use(), 0);
}

#[test]
fn texts_are_ordered_by_characters() {
    let failing = scant();
    let of = |text| text_of(&failing, text, 3);
    assert!(of("aa") < of("b"));
    assert!(of("aa") < of("ab"));
    assert!(of("a") < of("aa"));
}

#[test]
fn lists_are_ordered_by_items() {
    let of = |items: &[u8]| crate::fakes::list_of(items);
    let mut lists = [of(b"b"), of(b"ab"), of(b"a\xff"), of(b""), of(b"a")];
    lists.sort_unstable();
    let expected = [&b""[..], b"a", b"ab", b"a\xff", b"b"];
    assert_eq!(lists.each_ref().map(Vec::as_slice), expected);
}
