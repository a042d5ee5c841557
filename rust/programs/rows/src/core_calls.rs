//! The results of the core's calls on a text, each on a line. `tools/mir` compares them with those of the proved code.

use crate::shown::Shown;
use navyspindle::rendered::rl_cursors::*;
use navyspindle::rendered::rl_flaws::*;
use navyspindle::rendered::rl_lenient::*;
use navyspindle::rendered::rl_lexer::{Sources, Tokens};
use navyspindle::rendered::rl_strict::{explain, explain_missing_value, read, LineEnds};
use navyspindle::rendered::rl_style::*;
use navyspindle::rendered::rl_syntax::*;
use navyspindle::rendered::rl_writing::*;

/// Shows the results of repeated calls, up to the first one for which `is_last` returns `true`.
fn calls<T: Shown>(mut next: impl FnMut() -> T, is_last: impl Fn(&T) -> bool) -> String {
    let mut out = String::new();
    loop {
        let step = next();
        out += &(step.shown() + "\n");
        if is_last(&step) {
            return out;
        }
    }
}

/// Shows values, each on a line.
macro_rules! lines {
    ($($value:expr),+ $(,)?) => { [$($value.shown() + "\n"),+].concat() };
}

/// Shows the results that a method of a cursor returns up to `None`, and then the results of other methods.
macro_rules! cursor {
    ($cursor:expr, $next:ident $(, $method:ident)*) => {{
        let mut cursor = $cursor;
        calls(|| cursor.$next(), Option::is_none) $(+ &lines!(cursor.$method()))*
    }};
}

/// Shows the steps that a function returns up to the first one with the pattern.
macro_rules! steps {
    ($cursor:expr, $next:path $(, $argument:expr)*; $last:pat) => {{
        let mut cursor = $cursor;
        calls(|| $next(&mut cursor $(, $argument)*), |step| matches!(step, $last))
    }};
}

/// Shows each token of a source, and before it the next literals of two cursors that resume at this token.
fn sources(text: &str) -> String {
    let mut tokens = Sources::new(text);
    let next = || {
        let rest = tokens.rest();
        let literal = Sources::resume(text, rest).next_literal();
        let recovered = Recovery::resume(text, rest).next_literal();
        ((literal, recovered), tokens.next())
    };
    let all = calls(next, |step| step.1.is_none());
    all + &lines!(tokens.error(), tokens.rest(), tokens.following_lines())
}

/// Shows the segments of a quoted literal, where each byte of its value comes from, and where the halves of the value come from.
fn segments(text: &str) -> String {
    let (Some(segments), Some(found)) = (Segments::of(text), parse_literal(text)) else {
        return String::new();
    };
    let (mut out, mut len) = (cursor!(segments, next), 0);
    for segment in Segments::of(text).into_iter().flatten() {
        len += segment.value.len();
    }
    for at in 0..len + 2 {
        out += &lines!(text_offset(text, at));
    }
    let half = len / 2;
    let range = |lo, hi| text_range(found.kind, text, &found.body, lo, hi);
    out + &lines!(range(0, half), range(half, len), range(half, half))
}

fn reading(text: &str) -> String {
    let flaw = explain(text);
    let mut out = lines!(flaw, flaw.map(|it| it.in_span(Span::new(7, 3, 9))));
    for ends in [LineEnds::Text, LineEnds::File] {
        for signed in [false, true] {
            let missing = explain_missing_value(text, ends, signed);
            out += &lines!(read(text, ends, signed), missing);
        }
    }
    out
}

fn flaws(text: &str) -> String {
    let mut out = String::new();
    for ends in [LineEnds::Text, LineEnds::File] {
        if let Err(flaw) = read(text, ends, false) {
            let (first, flaws) = Flaws::after(text, ends, flaw);
            out += &(lines!(first) + &cursor!(flaws, next));
        }
    }
    out
}

fn pieces(text: &str, ends: LineEnds) -> String {
    Pieces::of(text, ends).map_or(String::new(), |it| cursor!(it, next))
}

fn types(text: &str) -> String {
    let Some(found) = parse_literal(text) else {
        return lines!(guess_kind(text));
    };
    let named = type_named(found.suffix_in(text));
    let errors = [false, true].map(|it| type_error(text, &found, it));
    let greatest = [false, true].map(|it| named.and_then(|ty| max_integer(ty, it)));
    lines!(guess_kind(text), errors[0], errors[1], named) + &lines!(greatest[0], greatest[1])
}

/// Shows what the text before each literal of a source means for the literal.
fn before(text: &str) -> String {
    let (mut tokens, mut out) = (Sources::new(text), String::new());
    while let Some(literal) = tokens.next_literal() {
        let before = &text[..literal.lo];
        let edition = first_reserving_edition(before, literal.text);
        out += &lines!(edition, may_be_negated(before));
    }
    out
}

/// Shows the text as literals, as the writers write them into a buffer: as strings, its first two characters as characters, and its
/// number of bytes times a great number as integers.
fn written(text: &str) -> String {
    let (mut room, mut out) = (vec![0; 16 * text.len() + 600], String::new());
    let mut show = |write: &dyn Fn(&mut [u8]) -> usize| {
        let len = write(&mut room);
        out += &lines!(std::str::from_utf8(&room[..len]).expect("a literal is text"));
    };
    show(&|room| write_str_into(text, room));
    show(&|room| write_bytes_into(Kind::ByteStr, text.as_bytes(), room));
    show(&|room| write_str_ascii_into(text, room));
    for c in text.chars().take(2) {
        show(&|room| write_char_into(c, room));
        show(&|room| write_char_ascii_into(c, room));
    }
    for kind in [Kind::Str, Kind::ByteStr, Kind::CStr] {
        if let Some(hashes) = min_raw_hashes(kind, text) {
            show(&|room| write_raw_into(kind, hashes, text, room));
        }
    }
    let value = text.len() as u128 * 0x0123_4567_89AB_CDEF_0123_4567;
    let bases = [Base::Binary, Base::Octal, Base::Decimal, Base::Hexadecimal];
    for (base, group) in bases.into_iter().zip([8, 0, 3, 4]) {
        let (upper, least) = (group == 4, 5);
        let style = IntegerStyle {
            base,
            upper,
            group,
            least,
        };
        show(&|room| write_integer_into(value, style, Some(IntegerType::U128), room));
    }
    out
}

/// Returns a style with all rules. Digits, exponents and escapes get the given case.
fn style(letters: Case, escapes: Case, separator: Separator) -> Style {
    let (binary, octal, decimal, hexadecimal, least) = (4, 3, 3, 4, 5);
    Style {
        hex_digits: Some(letters),
        underscores: true,
        leading_zeros: true,
        suffix_separator: Some(separator),
        digit_groups: Some(DigitGroups {
            binary,
            octal,
            decimal,
            hexadecimal,
            least,
        }),
        float_zero: true,
        exponent_letter: Some(letters),
        exponent_plus: true,
        escape_digits: Some(escapes),
        code_digits: true,
        ascii_escapes: true,
        named_escapes: true,
        quote_escapes: true,
        raw_hashes: true,
        raw: true,
        hidden: true,
    }
}

fn restyled(text: &str) -> String {
    let (mut room, mut out) = (vec![0; 4 * text.len() + 1], String::new());
    let full = style(Case::Lower, Case::Upper, Separator::Underscore);
    let other = style(Case::Upper, Case::Lower, Separator::Nothing);
    let sparse = Style {
        underscores: false,
        digit_groups: None,
        ascii_escapes: false,
        raw: false,
        ..other
    };
    for (front, style) in [("", full), ("#", full), ("", sparse)] {
        out += &lines!(is_changed_by_style(front, text, style, &mut room));
        let len = rewrite_into(front, text, style, &mut room);
        out += &lines!(len.map(|it| std::str::from_utf8(&room[..it]).expect("a literal is text")));
    }
    out
}

/// Returns the results of a command for a text, or `None` for an unknown command.
pub fn core_call(command: &str, text: &str) -> Option<String> {
    Some(match command {
        "tokens" => cursor!(Tokens::new(text), next, error, rest),
        "sources" => sources(text),
        "source-literals" => {
            steps!(Sources::new(text), next_source_literal; SourceStep::End | SourceStep::Rejected(_))
        }
        "recovery" => {
            steps!(Recovery::resume(text, Sources::new(text).rest()), next_recovered_literal; SourceStep::End)
        }
        "literals" => {
            let mut tokens = Tokens::new(text);
            calls(|| next_literal(&mut tokens), Option::is_none)
        }
        "list" => {
            steps!(ListLiterals::new(text), ListLiterals::next; ListStep::End | ListStep::Rejected(_))
        }
        "settings" => {
            steps!(Tokens::new(text), next_setting, text.len(); SettingStep::End | SettingStep::Rejected(_))
        }
        "entries" => {
            steps!(Tokens::new(text), next_config_entry, text; EntryStep::End | EntryStep::Rejected(_))
        }
        "leading" => lines!(
            leading_literal(text),
            leading_signed_literal(text),
            first_error(text)
        ),
        "found" => {
            lines!(
                parse_literal(text),
                parse_int_literal(text),
                parse_float_literal(text),
                parse_with_added_minus(text)
            ) + &lines!(
                shape(text),
                int_shape(text),
                float_shape(text),
                shape_negative(text)
            ) + &lines!(integer_parts(text), float_parts(text), bool_of(text))
        }
        "segments" => segments(text),
        "reading" => reading(text),
        "flaws" => flaws(text),
        "pieces" => pieces(text, LineEnds::Text) + &pieces(text, LineEnds::File),
        "types" => types(text),
        "before" => before(text),
        "written" => written(text),
        "restyled" => restyled(text),
        "restylable" => {
            cursor!(Restylables::new(text), next, has_stray, error)
                + &lines!(is_safe_to_restyle(text))
        }
        _ => return None,
    })
}
