// Rendered from crates/rl_restyle/src/rule.rt by tools/render, which erases contracts: change that file, and render again.
//! The rules of a style by their names in configurations.

use crate::rl_restyle::style_error::Expected;

pub const RULES: usize = 20;

#[derive(Clone, Copy)]
pub enum Rule {
    HexDigits,
    DropUnderscores,
    DropLeadingZeros,
    SuffixSeparator,
    BinaryGroups,
    OctalGroups,
    DecimalGroups,
    HexadecimalGroups,
    MinDigits,
    FloatZero,
    ExponentLetter,
    DropExponentPlus,
    EscapeDigits,
    FewestEscapeDigits,
    DropAsciiEscapes,
    NamedEscapes,
    DropQuoteEscapes,
    FewestHashes,
    DropRaw,
    EscapeInvisible,
}

pub fn settable_rules() -> &'static [Rule] {
    &[
        Rule::HexDigits,
        Rule::DropUnderscores,
        Rule::DropLeadingZeros,
        Rule::SuffixSeparator,
        Rule::BinaryGroups,
        Rule::OctalGroups,
        Rule::DecimalGroups,
        Rule::HexadecimalGroups,
        Rule::MinDigits,
        Rule::FloatZero,
        Rule::ExponentLetter,
        Rule::DropExponentPlus,
        Rule::EscapeDigits,
        Rule::FewestEscapeDigits,
        Rule::DropAsciiEscapes,
        Rule::NamedEscapes,
        Rule::DropQuoteEscapes,
        Rule::FewestHashes,
        Rule::DropRaw,
        Rule::EscapeInvisible,
    ]
}

impl Rule {
    pub fn name(self) -> &'static str {
        match self {
            Rule::HexDigits => "hex_digits",
            Rule::DropUnderscores => "drop_underscores",
            Rule::DropLeadingZeros => "drop_leading_zeros",
            Rule::SuffixSeparator => "suffix_separator",
            Rule::BinaryGroups => "binary_groups",
            Rule::OctalGroups => "octal_groups",
            Rule::DecimalGroups => "decimal_groups",
            Rule::HexadecimalGroups => "hexadecimal_groups",
            Rule::MinDigits => "min_digits",
            Rule::FloatZero => "float_zero",
            Rule::ExponentLetter => "exponent_letter",
            Rule::DropExponentPlus => "drop_exponent_plus",
            Rule::EscapeDigits => "escape_digits",
            Rule::FewestEscapeDigits => "fewest_escape_digits",
            Rule::DropAsciiEscapes => "drop_ascii_escapes",
            Rule::NamedEscapes => "named_escapes",
            Rule::DropQuoteEscapes => "drop_quote_escapes",
            Rule::FewestHashes => "fewest_hashes",
            Rule::DropRaw => "drop_raw",
            Rule::EscapeInvisible => "escape_invisible",
        }
    }
}

pub(crate) fn rule_of(name: &str) -> Option<Rule> {
    match name {
        "hex_digits" => Some(Rule::HexDigits),
        "drop_underscores" => Some(Rule::DropUnderscores),
        "drop_leading_zeros" => Some(Rule::DropLeadingZeros),
        "suffix_separator" => Some(Rule::SuffixSeparator),
        "binary_groups" => Some(Rule::BinaryGroups),
        "octal_groups" => Some(Rule::OctalGroups),
        "decimal_groups" => Some(Rule::DecimalGroups),
        "hexadecimal_groups" => Some(Rule::HexadecimalGroups),
        "min_digits" => Some(Rule::MinDigits),
        "float_zero" => Some(Rule::FloatZero),
        "exponent_letter" => Some(Rule::ExponentLetter),
        "drop_exponent_plus" => Some(Rule::DropExponentPlus),
        "escape_digits" => Some(Rule::EscapeDigits),
        "fewest_escape_digits" => Some(Rule::FewestEscapeDigits),
        "drop_ascii_escapes" => Some(Rule::DropAsciiEscapes),
        "named_escapes" => Some(Rule::NamedEscapes),
        "drop_quote_escapes" => Some(Rule::DropQuoteEscapes),
        "fewest_hashes" => Some(Rule::FewestHashes),
        "drop_raw" => Some(Rule::DropRaw),
        "escape_invisible" => Some(Rule::EscapeInvisible),
        _ => None,
    }
}

pub fn number_of(rule: Rule) -> usize {
    match rule {
        Rule::HexDigits => 0,
        Rule::DropUnderscores => 1,
        Rule::DropLeadingZeros => 2,
        Rule::SuffixSeparator => 3,
        Rule::BinaryGroups => 4,
        Rule::OctalGroups => 5,
        Rule::DecimalGroups => 6,
        Rule::HexadecimalGroups => 7,
        Rule::MinDigits => 8,
        Rule::FloatZero => 9,
        Rule::ExponentLetter => 10,
        Rule::DropExponentPlus => 11,
        Rule::EscapeDigits => 12,
        Rule::FewestEscapeDigits => 13,
        Rule::DropAsciiEscapes => 14,
        Rule::NamedEscapes => 15,
        Rule::DropQuoteEscapes => 16,
        Rule::FewestHashes => 17,
        Rule::DropRaw => 18,
        Rule::EscapeInvisible => 19,
    }
}

pub(crate) fn expected_of(rule: Rule) -> Expected {
    match rule {
        Rule::HexDigits | Rule::ExponentLetter | Rule::EscapeDigits => Expected::Case,
        Rule::SuffixSeparator => Expected::Separator,
        Rule::BinaryGroups
        | Rule::OctalGroups
        | Rule::DecimalGroups
        | Rule::HexadecimalGroups
        | Rule::MinDigits => Expected::Size,
        _ => Expected::Truth,
    }
}
