//! Measures how the time of the package's calls grows with the length of a macro's input.

use navyspindle::{next_literal, LitStr, MacroError, MacroInput, Meta};
use proc_macro::TokenStream;
use std::time::{Duration, Instant};
use std::{fs, thread};

const SHORT: usize = 100;
const LONG: usize = 32 * SHORT;

/// A call of the package that reads a macro's input.
type Call = fn(TokenStream);

fn read_settings(input: TokenStream) {
    let text = MacroInput::of(input);
    assert!(text
        .settings()
        .is_ok_and(|settings| settings.entries().len() >= SHORT));
}

/// Converts the range of each setting of the text to spans, as the errors of settings do.
fn place_settings(input: TokenStream) {
    let text = MacroInput::of(input);
    let settings = text.settings().expect("settings");
    for entry in settings.entries() {
        let _ = text.spans(entry.value_range.clone());
    }
}

fn read_entries(input: TokenStream) {
    assert!(Meta::parse_all(input).is_ok_and(|metas| metas.len() >= SHORT));
}

/// Creates an error for each token, and combines these errors into one.
fn join_errors(input: TokenStream) {
    let errors = input
        .into_iter()
        .map(|tree| MacroError::new("no", tree.span()));
    assert!(MacroError::combine_all(errors).is_err());
}

fn read_literals(input: TokenStream) {
    let mut tokens = input.into_iter();
    while tokens.next().is_some() {
        next_literal(&mut tokens.by_ref().skip(1)).expect("a literal");
        tokens.next();
    }
}

/// Returns the tokens of `count` settings with the value `value`.
fn input(count: usize, value: &str) -> TokenStream {
    let settings: String = (0..count).map(|at| format!("a{at} = {value},")).collect();
    settings.parse().expect("tokens")
}

/// Returns the time for which this thread has run, if Linux reports it, so that other threads don't count. On other systems it is
/// the time since `begin`.
fn now(begin: Instant) -> Duration {
    // Linux updates the thread's time when the thread yields.
    thread::yield_now();
    let told = fs::read_to_string("/proc/thread-self/schedstat").ok();
    let run = told.and_then(|told| told.split(' ').next()?.parse().ok());
    run.map_or_else(|| begin.elapsed(), Duration::from_nanos)
}

/// Returns the time of `times` calls.
fn time(call: Call, input: &TokenStream, times: usize) -> Duration {
    let begin = Instant::now();
    let before = now(begin);
    for _ in 0..times {
        call(input.clone());
    }
    now(begin) - before
}

/// Returns the least time of the call on short inputs, and its least time on a long input with as many settings in total. There are
/// up to five rounds, and fewer if `are_enough` returns `true` for the two times.
fn least_times(
    call: Call,
    value: &str,
    are_enough: impl Fn(Duration, Duration) -> bool,
) -> (Duration, Duration) {
    let (short, long) = (input(SHORT, value), input(LONG, value));
    let (mut few, mut many) = (Duration::MAX, Duration::MAX);
    for _ in 0..5 {
        few = few.min(time(call, &short, LONG / SHORT));
        many = many.min(time(call, &long, 1));
        if are_enough(few, many) {
            break;
        }
    }
    (few, many)
}

/// Whether the time for a long input is at most five times the time for short inputs with as many settings in total. The long input
/// is 32 times as long as a short one. If each setting took a walk over all tokens, the time would be about 32 times as long.
fn grows_in_step(few: Duration, many: Duration) -> bool {
    many <= few * 5
}

/// Iterates over the measured calls, each with each value that the settings of its input have.
fn calls() -> impl Iterator<Item = (&'static str, Call, &'static str)> {
    let calls: [(&str, Call); 5] = [
        ("MacroInput::settings", read_settings),
        ("MacroInput::spans", place_settings),
        ("next_literal", read_literals),
        ("Meta::parse_all", read_entries),
        ("MacroError::combine", join_errors),
    ];
    let values = ["1", "- 1", "\"a\\n\""];
    calls
        .into_iter()
        .flat_map(move |(name, call)| values.map(|value| (name, call, value)))
}

fn string(text: &str) -> TokenStream {
    LitStr::new(text)
        .to_token_stream(proc_macro::Span::call_site())
        .expect("a string")
}

/// Returns a string literal with the names of the calls whose time per setting is longer for a long input.
pub fn slow_calls() -> TokenStream {
    let slow = calls().filter(|(_, call, value)| {
        let (few, many) = least_times(*call, value, grows_in_step);
        !grows_in_step(few, many)
    });
    let slow: String = slow
        .map(|(name, _, value)| format!("{name} of {value}; "))
        .collect();
    string(&slow)
}

/// Returns a string literal with a line for each call: the call's name, the value of the settings, and the nanoseconds per setting
/// for inputs of 100 and of 3,200 settings, separated by tabs.
pub fn call_times() -> TokenStream {
    let lines = calls().map(|(name, call, value)| {
        let (few, many) = least_times(call, value, |_, _| false);
        let each = |time: Duration| time.as_nanos() / LONG as u128;
        format!("{name}\t{value}\t{}\t{}\n", each(few), each(many))
    });
    string(&lines.collect::<String>())
}
