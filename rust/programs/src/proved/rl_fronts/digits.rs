// Rendered from crates/rl_fronts/src/digits.rt by tools/render, which erases contracts: change that file, and render again.
//! Functions that return the digits of an integer or float literal as a new string.

use crate::rattle_std::prelude::{String, vec};
use crate::rl_lenient::digit_runs::is_negative;
use crate::rl_lenient::found::parse_known_literal;
use crate::rl_lenient::{Found, float_digits_into, parse_float_literal};
use crate::rl_tokens::{Error, Kind};
use crate::rattle_std::alloc::{AllocError, Allocator};

const INTEGER_DIGITS: usize = 40;

pub fn digits_of<A: Allocator>(alloc: A, kind: Kind, text: &str) -> Result<String<A>, Error<A>> {
    digits_of_found(alloc, text, found_number(kind, text))
}

fn found_number(kind: Kind, text: &str) -> Found {
    match kind {
        Kind::Int => parse_known_literal(text),
        _ => match parse_float_literal(text) {
            Some(found) => found,
            None => unreachable!(),
        },
    }
}

pub fn digits_of_found<A: Allocator>(
    alloc: A,
    text: &str,
    found: Found,
) -> Result<String<A>, Error<A>> {
    Ok(found_digits(alloc, text, found)?)
}

fn found_digits<A: Allocator>(alloc: A, text: &str, found: Found) -> Result<String<A>, AllocError> {
    let body = found.body_in(text);
    if found.body.plain {
        return String::from_str(alloc, body);
    }
    match found.kind {
        Kind::Int => signed_decimal(alloc, text, found.magnitude),
        _ => plain_numeral(alloc, body),
    }
}

fn signed_decimal<A: Allocator>(
    alloc: A,
    text: &str,
    magnitude: u128,
) -> Result<String<A>, AllocError> {
    let mut digits = String::with_capacity(alloc, INTEGER_DIGITS)?;
    push_sign(&mut digits, text)?;
    push_decimal(&mut digits, magnitude)?;
    Ok(digits)
}

fn push_sign<A: Allocator>(digits: &mut String<A>, text: &str) -> Result<(), AllocError> {
    if is_negative(text) {
        digits.push('-')
    } else {
        Ok(())
    }
}

fn push_decimal<A: Allocator>(digits: &mut String<A>, number: u128) -> Result<(), AllocError> {
    let written = match u64::try_from(number) {
        Ok(small) => write!(digits, "{small}"),
        Err(_) => write!(digits, "{number}"),
    };
    match written {
        Ok(()) => Ok(()),
        Err(_) => Err(AllocError),
    }
}

fn plain_numeral<A: Allocator>(alloc: A, numeral: &str) -> Result<String<A>, AllocError> {
    let mut digits = vec![in alloc; 0; numeral.len()]?;
    let len = float_digits_into(numeral, digits.as_mut_slice());
    digits.truncate(len);
    Ok(String::from_utf8_unchecked(digits))
}
