// Rendered from crates/rl_cursors/src/leading.rt by tools/render, which erases contracts: change that file, and render again.
//! The literal at the start of a text, optionally with a minus before it.

use crate::rl_lenient::digit_runs::begins_digit;
use crate::rl_lenient::{Found, parse_literal, parse_with_added_minus};
use crate::rl_lexer::{SourceToken, first_source_token};
use crate::rl_syntax::text::{before, begins, strip_byte};

#[derive(Clone, Copy)]
pub struct LeadingLiteral<'t> {
    pub text: &'t str,
    pub found: Option<Found>,
    pub following: &'t str,
}

fn may_lead(text: &str) -> bool {
    begins_digit(text)
        || begins(text, "\"")
        || begins(text, "'")
        || begins(text, "r\"")
        || begins(text, "r#")
        || begins(text, "b\"")
        || begins(text, "b'")
        || begins(text, "br")
        || begins(text, "c\"")
        || begins(text, "cr")
        || begins(text, "true")
        || begins(text, "false")
}

pub fn leading_literal(text: &str) -> Option<LeadingLiteral<'_>> {
    if !may_lead(text) {
        return None;
    }
    let (form, following) = first_source_token(text)?;
    let literal = before(text, following);
    let token = SourceToken {
        form,
        text: literal,
        lo: 0,
        hi: literal.len(),
    };
    if !token.is_literal() {
        return None;
    }
    Some(LeadingLiteral {
        text: literal,
        found: parse_literal(literal),
        following,
    })
}

fn leading_negative(text: &str) -> Option<LeadingLiteral<'_>> {
    let unsigned = strip_byte(text, b'-')?;
    let number = leading_literal(unsigned)?;
    let found = parse_with_added_minus(number.text)?;
    Some(LeadingLiteral {
        text: before(text, number.following),
        found: Some(found),
        following: number.following,
    })
}

pub fn leading_signed_literal(text: &str) -> Option<LeadingLiteral<'_>> {
    match leading_literal(text) {
        Some(literal) => Some(literal),
        None => leading_negative(text),
    }
}
