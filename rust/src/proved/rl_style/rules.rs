// Rendered from crates/rl_style/src/rules.rt by tools/render, which erases contracts: change that file, and render again.
//! The rules of a style, each by its name.

use crate::rl_style::rewrite::rewrite_within;
use crate::rl_style::style::Style;
use crate::rl_strict::Flaw;

#[derive(Clone, Copy, PartialEq, Eq, Debug)]
pub enum Rule {
    HexDigits,
    Underscores,
    LeadingZeros,
    SuffixSeparator,
    DigitGroups,
    FloatZero,
    ExponentLetter,
    ExponentPlus,
    EscapeDigits,
    CodeDigits,
    AsciiEscapes,
    NamedEscapes,
    QuoteEscapes,
    RawHashes,
    Raw,
    Hidden,
}

#[inline]
pub fn all_rules() -> &'static [Rule] {
    &[
        Rule::HexDigits,
        Rule::Underscores,
        Rule::LeadingZeros,
        Rule::SuffixSeparator,
        Rule::DigitGroups,
        Rule::FloatZero,
        Rule::ExponentLetter,
        Rule::ExponentPlus,
        Rule::EscapeDigits,
        Rule::CodeDigits,
        Rule::AsciiEscapes,
        Rule::NamedEscapes,
        Rule::QuoteEscapes,
        Rule::RawHashes,
        Rule::Raw,
        Rule::Hidden,
    ]
}

impl Rule {
    #[inline]
    pub fn name(self) -> &'static str {
        match self {
            Rule::HexDigits => "hex_digits",
            Rule::Underscores => "drop_underscores",
            Rule::LeadingZeros => "drop_leading_zeros",
            Rule::SuffixSeparator => "suffix_separator",
            Rule::DigitGroups => "digit_groups",
            Rule::FloatZero => "float_zero",
            Rule::ExponentLetter => "exponent_letter",
            Rule::ExponentPlus => "drop_exponent_plus",
            Rule::EscapeDigits => "escape_digits",
            Rule::CodeDigits => "fewest_escape_digits",
            Rule::AsciiEscapes => "drop_ascii_escapes",
            Rule::NamedEscapes => "named_escapes",
            Rule::QuoteEscapes => "drop_quote_escapes",
            Rule::RawHashes => "fewest_hashes",
            Rule::Raw => "drop_raw",
            Rule::Hidden => "escape_invisible",
        }
    }
}

impl Style {
    #[inline]
    pub fn only(self, rule: Rule) -> Style {
        let keep = Style::KEEP;
        match rule {
            Rule::HexDigits => Style {
                hex_digits: self.hex_digits,
                ..keep
            },
            Rule::Underscores => Style {
                underscores: self.underscores,
                ..keep
            },
            Rule::LeadingZeros => Style {
                leading_zeros: self.leading_zeros,
                ..keep
            },
            Rule::SuffixSeparator => Style {
                suffix_separator: self.suffix_separator,
                ..keep
            },
            Rule::DigitGroups => Style {
                digit_groups: self.digit_groups,
                ..keep
            },
            Rule::FloatZero => Style {
                float_zero: self.float_zero,
                ..keep
            },
            Rule::ExponentLetter => Style {
                exponent_letter: self.exponent_letter,
                ..keep
            },
            Rule::ExponentPlus => Style {
                exponent_plus: self.exponent_plus,
                ..keep
            },
            Rule::EscapeDigits => Style {
                escape_digits: self.escape_digits,
                ..keep
            },
            Rule::CodeDigits => Style {
                code_digits: self.code_digits,
                ..keep
            },
            Rule::AsciiEscapes => Style {
                ascii_escapes: self.ascii_escapes,
                ..keep
            },
            Rule::NamedEscapes => Style {
                named_escapes: self.named_escapes,
                ..keep
            },
            Rule::QuoteEscapes => Style {
                quote_escapes: self.quote_escapes,
                ..keep
            },
            Rule::RawHashes => Style {
                raw_hashes: self.raw_hashes,
                ..keep
            },
            Rule::Raw => Style {
                raw: self.raw,
                ..keep
            },
            Rule::Hidden => Style {
                hidden: self.hidden,
                ..keep
            },
        }
    }
}

#[inline]
pub fn is_changed_by_style(
    front: &str,
    text: &str,
    style: Style,
    out: &mut [u8],
) -> Result<bool, Flaw> {
    let len = rewrite_within(front, text, style, out)?;
    let is_same = &out[..len] == text.as_bytes();
    Ok(!is_same)
}
