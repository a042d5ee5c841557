//! Compares integers and floats with the translated libraries: digits, bases and the parts of their texts.

use crate::literals::Proved;
use navyspindle::{Base, Lit, NumberType};
use navyspindle_programs::rattle_std::alloc::Global;
use navyspindle_programs::rl_grammar::Found;
use std::borrow::Cow;
use std::fmt::Display;

fn shown<T: Display, E: Display>(answer: Result<T, E>) -> String {
    match answer {
        Ok(number) => number.to_string(),
        Err(error) => format!("error: {error}"),
    }
}

/// Returns the number type that a suffix names.
fn type_of(suffix: &str) -> Option<&str> {
    let types = "u8 u16 u32 u64 u128 usize i8 i16 i32 i64 i128 isize f32 f64";
    types.split(' ').find(|name| *name == suffix)
}

/// Checks the properties that integers and floats share.
macro_rules! check_number {
    ($ours:expr, $proved:expr, $found:expr) => {{
        let (ours, proved) = ($ours, $proved);
        let text = proved.text();
        assert_eq!(ours.base10_digits(), proved.base10_digits(), "{text:?}");
        assert_eq!(ours.is_negative(), text.starts_with('-'), "{text:?}");
        let suffix = ours.type_suffix();
        let name = type_of(proved.suffix());
        assert_eq!(suffix.map(NumberType::as_str), name, "{text:?}");
        assert_eq!(
            suffix.map(NumberType::is_float),
            name.map(|it| it.starts_with('f')),
            "{text:?}"
        );
        assert_eq!(ours.suffix_range(), $found.body.suffix_at..text.len(), "{text:?}");
        check_number!(@parse ours proved text u8 i8 u128 i128 f64);
    }};
    (@parse $ours:ident $proved:ident $text:ident $($type:ident)*) => {
        $(assert_eq!(
            shown($ours.base10_parse::<$type>()),
            shown($proved.base10_parse::<$type, Global>(Global)),
            "{:?}",
            $text
        );)*
    };
}

pub fn check(ours: &Lit, proved: &Proved, found: &Found) {
    let text = proved.text();
    let numeral = &text[..found.body.suffix_at];
    let unsigned = numeral.strip_prefix('-').unwrap_or(numeral);
    match (ours, proved) {
        (Lit::Int(a), Proved::Int(b)) => {
            check_number!(a, b, found);
            let is_borrowed = matches!(a.base10_digits(), Cow::Borrowed(_));
            assert_eq!(is_borrowed, numeral == b.base10_digits(), "{text:?}");
            assert_eq!(a.magnitude(), found.magnitude, "{text:?}");
            let (base, radix) = match unsigned.as_bytes() {
                [b'0', b'b', ..] => (Base::Binary, 2),
                [b'0', b'o', ..] => (Base::Octal, 8),
                [b'0', b'x', ..] => (Base::Hexadecimal, 16),
                _ => (Base::Decimal, 10),
            };
            let digits = if radix == 10 {
                unsigned
            } else {
                &unsigned[2..]
            };
            assert_eq!((a.base(), a.base().radix()), (base, radix), "{text:?}");
            assert_eq!(a.digits(), digits, "{text:?}");
            let prefix = a.base().prefix();
            assert_eq!(format!("{prefix}{digits}"), unsigned, "{text:?}");
        }
        (Lit::Float(a), Proved::Float(b)) => {
            check_number!(a, b, found);
            let is_borrowed = matches!(a.base10_digits(), Cow::Borrowed(_));
            assert_eq!(is_borrowed, text.starts_with(b.base10_digits()), "{text:?}");
            assert_eq!(a.number_part(), numeral, "{text:?}");
            let letter = unsigned.find(['e', 'E']);
            let front = &unsigned[..letter.unwrap_or(unsigned.len())];
            assert_eq!(a.exponent_part(), letter.map(|at| &unsigned[at + 1..]));
            let dot = front.find('.');
            assert_eq!(a.integer_part(), &front[..dot.unwrap_or(front.len())]);
            assert_eq!(a.fractional_part(), dot.map(|at| &front[at + 1..]));
        }
        _ => {}
    }
}
