// Rendered from crates/rl_restyle/src/changing.rt by tools/render, which erases contracts: change that file, and render again.
//! Finds the rules of a style that change a literal.

use crate::rattle_std::prelude::{Vec, vec};
use crate::rl_restyle::rule::{Rule, settable_rules};
use crate::rl_restyle::texts::{SHORT, buffer_len};
use crate::rl_style::{DigitGroups, Rule as StyleRule, Style, is_changed_by_style};
use crate::rattle_std::alloc::{AllocError, Allocator};

fn style_rule(rule: Rule) -> StyleRule {
    match rule {
        Rule::HexDigits => StyleRule::HexDigits,
        Rule::DropUnderscores => StyleRule::Underscores,
        Rule::DropLeadingZeros => StyleRule::LeadingZeros,
        Rule::SuffixSeparator => StyleRule::SuffixSeparator,
        Rule::BinaryGroups
        | Rule::OctalGroups
        | Rule::DecimalGroups
        | Rule::HexadecimalGroups
        | Rule::MinDigits => StyleRule::DigitGroups,
        Rule::FloatZero => StyleRule::FloatZero,
        Rule::ExponentLetter => StyleRule::ExponentLetter,
        Rule::DropExponentPlus => StyleRule::ExponentPlus,
        Rule::EscapeDigits => StyleRule::EscapeDigits,
        Rule::FewestEscapeDigits => StyleRule::CodeDigits,
        Rule::DropAsciiEscapes => StyleRule::AsciiEscapes,
        Rule::NamedEscapes => StyleRule::NamedEscapes,
        Rule::DropQuoteEscapes => StyleRule::QuoteEscapes,
        Rule::FewestHashes => StyleRule::RawHashes,
        Rule::DropRaw => StyleRule::Raw,
        Rule::EscapeInvisible => StyleRule::Hidden,
    }
}

fn own_groups(rule: Rule, groups: DigitGroups) -> DigitGroups {
    let none = DigitGroups {
        binary: 0,
        octal: 0,
        decimal: 0,
        hexadecimal: 0,
        least: groups.least,
    };
    match rule {
        Rule::BinaryGroups => DigitGroups {
            binary: groups.binary,
            ..none
        },
        Rule::OctalGroups => DigitGroups {
            octal: groups.octal,
            ..none
        },
        Rule::DecimalGroups => DigitGroups {
            decimal: groups.decimal,
            ..none
        },
        Rule::HexadecimalGroups => DigitGroups {
            hexadecimal: groups.hexadecimal,
            ..none
        },
        _ => none,
    }
}

fn groups_alone(rule: Rule, groups: Option<DigitGroups>) -> Option<DigitGroups> {
    match groups {
        Some(groups) => Some(own_groups(rule, groups)),
        None => None,
    }
}

fn rule_alone(style: Style, rule: Rule) -> Style {
    let only = style.only(style_rule(rule));
    Style {
        digit_groups: groups_alone(rule, only.digit_groups),
        ..only
    }
}

fn is_set(style: Style, rule: Rule) -> bool {
    match rule {
        Rule::HexDigits => style.hex_digits.is_some(),
        Rule::DropUnderscores => style.underscores,
        Rule::DropLeadingZeros => style.leading_zeros,
        Rule::SuffixSeparator => style.suffix_separator.is_some(),
        Rule::BinaryGroups
        | Rule::OctalGroups
        | Rule::DecimalGroups
        | Rule::HexadecimalGroups
        | Rule::MinDigits => style.digit_groups.is_some(),
        Rule::FloatZero => style.float_zero,
        Rule::ExponentLetter => style.exponent_letter.is_some(),
        Rule::DropExponentPlus => style.exponent_plus,
        Rule::EscapeDigits => style.escape_digits.is_some(),
        Rule::FewestEscapeDigits => style.code_digits,
        Rule::DropAsciiEscapes => style.ascii_escapes,
        Rule::NamedEscapes => style.named_escapes,
        Rule::DropQuoteEscapes => style.quote_escapes,
        Rule::FewestHashes => style.raw_hashes,
        Rule::DropRaw => style.raw,
        Rule::EscapeInvisible => style.hidden,
    }
}

fn is_changed_alone(style: Style, rule: Rule, front: &str, text: &str, out: &mut [u8]) -> bool {
    match is_changed_by_style(front, text, rule_alone(style, rule), out) {
        Ok(is_changed) => is_changed,
        Err(_) => false,
    }
}

fn push_if_changing<A: Allocator>(
    rules: &mut Vec<Rule, A>,
    style: Style,
    rule: Rule,
    front: &str,
    text: &str,
    out: &mut [u8],
) -> Result<(), AllocError> {
    if !is_set(style, rule) {
        return Ok(());
    }
    if !is_changed_alone(style, rule, front, text, out) {
        return Ok(());
    }
    rules.push(rule)?;
    Ok(())
}

fn changing_rules_in<A: Allocator>(
    alloc: A,
    style: Style,
    front: &str,
    text: &str,
    out: &mut [u8],
) -> Result<Vec<Rule, A>, AllocError> {
    let mut rules = Vec::new(alloc);
    let mut rest = settable_rules();
    while let Some((rule, after)) = rest.split_first() {
        push_if_changing(&mut rules, style, *rule, front, text, out)?;
        rest = after;
    }
    Ok(rules)
}

pub fn changing_rules<A: Allocator + Copy>(
    alloc: A,
    style: Style,
    front: &str,
    text: &str,
) -> Result<Vec<Rule, A>, AllocError> {
    let room = buffer_len(style, text)?;
    if room <= SHORT {
        return changing_rules_in(alloc, style, front, text, &mut [0; SHORT]);
    }
    let mut bytes = vec![in alloc; 0; room]?;
    changing_rules_in(alloc, style, front, text, bytes.as_mut_slice())
}
