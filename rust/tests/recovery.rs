//! Tests of the literals after an error in a source. Hostile texts must not take more time per byte if they are long.

use navyspindle::{parse_list, source, Recover};
use std::time::{Duration, Instant};
use std::{fs, thread};

fn shown(items: Recover<'_>) -> Vec<String> {
    items
        .map(|item| match item {
            Ok((_, literal)) => literal.text().to_owned(),
            Err(error) => format!("{} {:?}", error.offset(), error.kind()),
        })
        .collect()
}

#[test]
fn after_each_error() {
    let rows: [(&str, &[&str]); 22] = [
        ("", &[]),
        ("1 2", &["1", "2"]),
        ("1 \"a 2", &["1", "2 UnclosedQuote"]),
        ("\"a\n1 'b'\n", &["0 UnclosedQuote", "1", "'b'"]),
        ("b\"a\n1", &["0 UnclosedQuote", "1"]),
        ("r\"a\n1", &["0 UnclosedQuote", "1"]),
        ("cr#\"a\"\n1", &["0 UnclosedQuote", "1"]),
        ("1 /* 2\n3", &["1", "2 UnclosedComment"]),
        ("/** 2\n3", &["0 UnclosedComment"]),
        ("'\n1 + 'b", &["0 UnclosedQuote", "1"]),
        ("'+\n1", &["0 UnclosedQuote", "1"]),
        // An opening delimiter that is known to stay open is reported at once. For any other one, its closing delimiter is searched
        // for.
        (
            "\\\"\n\\\"\n1",
            &["1 UnclosedQuote", "4 UnclosedQuote", "1"],
        ),
        (
            "r##\"\nr#\"\nr##\"\"#\n1",
            &["0 UnclosedQuote", "r#\"\nr##\"\"#", "1"],
        ),
        (
            "r#\"\n1 r##\"\n2 r\"\n3",
            &[
                "0 UnclosedQuote",
                "1",
                "6 UnclosedQuote",
                "2",
                "13 UnclosedQuote",
                "3",
            ],
        ),
        // After an escaped line end, a character's line continues, and a string's doesn't.
        ("'+ \\\n1\n2", &["0 UnclosedQuote", "2"]),
        ("b'+ \\\n1 \\\n2", &["0 UnclosedQuote"]),
        ("'+ \\\\\n1\n2", &["0 UnclosedQuote", "1", "2"]),
        ("\"+ \\\n1\n2", &["0 UnclosedQuote", "1", "2"]),
        ("'\\x\n1", &["0 UnclosedQuote", "1"]),
        // Text that is special only at the start of a source, such as `#!`.
        ("\"\n#!1\n2", &["0 UnclosedQuote", "1", "2"]),
        ("\"\n\u{feff}1", &["0 UnclosedQuote", "1"]),
        ("\"\n/* \" */ 1", &["\"\n/* \"", "1"]),
    ];
    for (text, expected) in rows {
        assert_eq!(shown(source(text).recover()), expected, "{text:?}");
    }
}

/// A clone continues at the position of its source. It is at the end if its source is: after the last literal, and after an error.
#[test]
fn clones() {
    for (text, count) in [("1 2", 2), ("1 \"a", 2), ("'", 1), ("/*", 1), ("", 0)] {
        let mut items = source(text);
        for taken in 0..count {
            assert_eq!(items.clone().count(), count - taken, "{text:?}");
            assert!(items.next().is_some(), "{text:?}");
        }
        let mut before_the_end = items.clone();
        assert!(items.next().is_none(), "{text:?}");
        let mut after_it = items.clone();
        assert!(before_the_end.next().is_none() && before_the_end.next().is_none());
        assert!(after_it.next().is_none() && after_it.next().is_none());
        assert_eq!(
            shown(after_it.recover()),
            shown(items.recover()),
            "{text:?}"
        );
    }
}

/// Tests that a clone of `Literals` returns the same items as the original: after each literal, after an error, and at the end.
#[test]
fn clones_of_lists() {
    for (text, count) in [("1 2", 2), ("1 word", 2), ("1 (2", 2), ("", 0)] {
        let mut items = parse_list(text);
        for taken in 0..=count {
            let mut copy = items.clone();
            assert_eq!(format!("{copy:?}"), format!("{items:?}"), "{text:?}");
            assert_eq!(copy.by_ref().count(), count - taken, "{text:?}");
            assert!(
                copy.next().is_none() && copy.clone().next().is_none(),
                "{text:?}"
            );
            assert_eq!(items.next().is_some(), taken < count, "{text:?}");
        }
    }
}

#[test]
fn from_where_a_source_stands() {
    let text = "1 2 'a \"b\n3 \\\"c\n4";
    let mut items = source(text);
    assert!(items.next().is_some());
    let recovered = ["2", "7 UnclosedQuote"];
    assert_eq!(shown(items.clone().recover())[..2], recovered);
    assert_eq!(items.by_ref().count(), 2);
    let mut rest = items.recover();
    assert_eq!(shown(rest.clone()), shown(source(text).recover())[3..]);
    assert_eq!(rest.by_ref().count(), 3);
    assert!(rest.next().is_none() && rest.next().is_none());
    assert_eq!(format!("{rest:?}"), "Recover(\"\")");
    let error = source("1 \"a\n2").recover().find_map(Result::err).unwrap();
    assert_eq!(error.range(), 2..6);
}

/// Returns the time for which this thread has run, if Linux reports it, so that other threads don't count. On other systems it is
/// the time since `begin`.
fn now(begin: Instant) -> Duration {
    // Linux updates the thread's time when the thread yields.
    thread::yield_now();
    let told = fs::read_to_string("/proc/thread-self/schedstat").ok();
    let run = told.and_then(|told| told.split(' ').next()?.parse().ok());
    run.map_or_else(|| begin.elapsed(), Duration::from_nanos)
}

/// Returns the time in which `Source::recover` is called `times` times, and lists all literals and errors of a text each time.
fn time(text: &str, times: usize) -> Duration {
    let begin = Instant::now();
    let before = now(begin);
    for _ in 0..times {
        assert!(source(text).recover().count() > 0);
    }
    now(begin) - before
}

#[test]
fn hostile_texts() {
    let lines = [
        "/*\n",
        "\"\n",
        "\\\"\n",
        "r#\"\n",
        "r\"\nr#\"\n",
        "r##\"\nr#\"\n",
        "\\\"\nr#\"\nb\"\n",
        "' \\\n",
        "\\' \\\n",
        "'\n",
        "'/\n",
        "'\\x\n",
        "'\\\n",
        "'/\n#!/*\n",
        "\\'+ \\\n/\n",
    ];
    for line in lines {
        let text = |size: usize| line.repeat(size / line.len());
        check_growth(line, &text(1 << 14), &text(1 << 18));
    }
}

/// Checks that a long text takes at most eight times as long as short texts with as many bytes in total, in the best of five
/// rounds. The long text is sixteen times as long as a short one. A search from each line to the end would take sixteen times as
/// long.
fn check_growth(name: &str, short: &str, long: &str) {
    let (mut few, mut many) = (Duration::MAX, Duration::MAX);
    for _ in 0..5 {
        few = few.min(time(short, long.len() / short.len()));
        many = many.min(time(long, 1));
        if many <= few * 8 {
            return;
        }
    }
    panic!("{name:?}: {few:?} for short texts, {many:?} for a long one");
}
