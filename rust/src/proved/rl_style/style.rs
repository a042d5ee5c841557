// Rendered from crates/rl_style/src/style.rt by tools/render, which erases contracts: change that file, and render again.
//! Styles: the rules by which literals are rewritten.

#[derive(Clone, Copy)]
pub enum Case {
    Lower,
    Upper,
}

#[derive(Clone, Copy)]
pub enum Separator {
    Nothing,
    Underscore,
}

#[derive(Clone, Copy)]
pub struct DigitGroups {
    pub binary: usize,
    pub octal: usize,
    pub decimal: usize,
    pub hexadecimal: usize,
    pub least: usize,
}

#[derive(Clone, Copy)]
pub struct Style {
    pub hex_digits: Option<Case>,
    pub underscores: bool,
    pub leading_zeros: bool,
    pub suffix_separator: Option<Separator>,
    pub digit_groups: Option<DigitGroups>,
    pub float_zero: bool,
    pub exponent_letter: Option<Case>,
    pub exponent_plus: bool,
    pub escape_digits: Option<Case>,
    pub code_digits: bool,
    pub ascii_escapes: bool,
    pub named_escapes: bool,
    pub quote_escapes: bool,
    pub raw_hashes: bool,
    pub raw: bool,
    pub hidden: bool,
}

impl Style {
    pub const KEEP: Style = Style {
        hex_digits: None,
        underscores: false,
        leading_zeros: false,
        suffix_separator: None,
        digit_groups: None,
        float_zero: false,
        exponent_letter: None,
        exponent_plus: false,
        escape_digits: None,
        code_digits: false,
        ascii_escapes: false,
        named_escapes: false,
        quote_escapes: false,
        raw_hashes: false,
        raw: false,
        hidden: false,
    };
}
