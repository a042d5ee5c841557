// Rendered from crates/rl_restyle/src/values.rt by tools/render, which erases contracts: change that file, and render again.
//! The values of a style's rules in a configuration.

use crate::rl_restyle::rule::{RULES, Rule, number_of};
use crate::rl_restyle::value::Value;
use crate::rl_style::{Case, DigitGroups, Separator, Style};

pub(crate) struct Values {
    values: [Option<Value>; RULES],
}

fn groups_if_any(groups: DigitGroups) -> Option<DigitGroups> {
    if groups.binary == 0
        && groups.octal == 0
        && groups.decimal == 0
        && groups.hexadecimal == 0
        && groups.least == 0
    {
        None
    } else {
        Some(groups)
    }
}

impl Values {
    pub(crate) fn new() -> Values {
        Values {
            values: [None; RULES],
        }
    }

    pub(crate) fn get(&self, rule: Rule) -> Option<Value> {
        self.values[number_of(rule)]
    }

    pub(crate) fn set(&mut self, rule: Rule, value: Value) {
        self.values[number_of(rule)] = Some(value);
    }

    fn truth(&self, rule: Rule) -> bool {
        match self.get(rule) {
            Some(Value::Truth(truth)) => truth,
            _ => false,
        }
    }

    fn size(&self, rule: Rule) -> usize {
        match self.get(rule) {
            Some(Value::Size(size)) => size,
            _ => 0,
        }
    }

    fn case(&self, rule: Rule) -> Option<Case> {
        match self.get(rule) {
            Some(Value::CaseOf(case)) => Some(case),
            _ => None,
        }
    }

    fn separator(&self, rule: Rule) -> Option<Separator> {
        match self.get(rule) {
            Some(Value::SeparatorOf(separator)) => Some(separator),
            _ => None,
        }
    }

    fn groups(&self) -> Option<DigitGroups> {
        groups_if_any(DigitGroups {
            binary: self.size(Rule::BinaryGroups),
            octal: self.size(Rule::OctalGroups),
            decimal: self.size(Rule::DecimalGroups),
            hexadecimal: self.size(Rule::HexadecimalGroups),
            least: self.size(Rule::MinDigits),
        })
    }

    pub(crate) fn style(&self) -> Style {
        Style {
            hex_digits: self.case(Rule::HexDigits),
            underscores: self.truth(Rule::DropUnderscores),
            leading_zeros: self.truth(Rule::DropLeadingZeros),
            suffix_separator: self.separator(Rule::SuffixSeparator),
            digit_groups: self.groups(),
            float_zero: self.truth(Rule::FloatZero),
            exponent_letter: self.case(Rule::ExponentLetter),
            exponent_plus: self.truth(Rule::DropExponentPlus),
            escape_digits: self.case(Rule::EscapeDigits),
            code_digits: self.truth(Rule::FewestEscapeDigits),
            ascii_escapes: self.truth(Rule::DropAsciiEscapes),
            named_escapes: self.truth(Rule::NamedEscapes),
            quote_escapes: self.truth(Rule::DropQuoteEscapes),
            raw_hashes: self.truth(Rule::FewestHashes),
            raw: self.truth(Rule::DropRaw),
            hidden: self.truth(Rule::EscapeInvisible),
        }
    }
}
