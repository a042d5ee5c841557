//! The style of written literals.

#[cfg(feature = "writers")]
use crate::numbers::Base;
#[cfg(feature = "style")]
use crate::rl_style;
#[cfg(feature = "writers")]
use crate::rl_writing;

/// The case of letters: lower or upper.
///
/// ```
/// use navyspindle::{rewrite, Case, Style};
///
/// assert_eq!(rewrite("0xFf", Style::new().hex_digits(Case::Upper))?, "0xFF");
/// # Ok::<(), navyspindle::ParseError>(())
/// ```
#[derive(Clone, Copy, Debug, PartialEq, Eq, Hash)]
pub enum Case {
    /// Lower case, as in `a`.
    Lower,
    /// Upper case, as in `A`.
    Upper,
}

#[cfg(feature = "style")]
impl Case {
    #[inline]
    fn proved(self) -> rl_style::Case {
        match self {
            Case::Lower => rl_style::Case::Lower,
            Case::Upper => rl_style::Case::Upper,
        }
    }
}

/// The separator between a number and its suffix.
///
/// ```
/// use navyspindle::{rewrite, Separator, Style};
///
/// assert_eq!(rewrite("1u8", Style::new().suffix_separator(Separator::Underscore))?, "1_u8");
/// # Ok::<(), navyspindle::ParseError>(())
/// ```
#[derive(Clone, Copy, Debug, PartialEq, Eq, Hash)]
#[non_exhaustive]
pub enum Separator {
    /// No separator, as in `1u8`.
    Nothing,
    /// An underscore, as in `1_u8`.
    Underscore,
}

#[cfg(feature = "style")]
impl Separator {
    #[inline]
    fn proved(self) -> rl_style::Separator {
        match self {
            Separator::Nothing => rl_style::Separator::Nothing,
            Separator::Underscore => rl_style::Separator::Underscore,
        }
    }
}

/// The sizes of the groups of digits in numbers. An underscore separates two groups.
///
/// Each base has a size of its own. The size is 0 at first, and then the numbers of that base are left unchanged.
///
/// ```
/// use navyspindle::{rewrite, DigitGroups, Style};
///
/// const GROUPS: DigitGroups = DigitGroups::new().decimal(3).hexadecimal(4).min_digits(5);
/// let style = Style::new().digit_groups(GROUPS);
/// assert_eq!(rewrite("1000000u64", style)?, "1_000_000u64");
/// assert_eq!(rewrite("0xdead_beef", style)?, "0xdead_beef");
/// assert_eq!(rewrite("10_00", style)?, "1000");
/// assert_eq!(rewrite("0b11111", style)?, "0b11111");
/// # Ok::<(), navyspindle::ParseError>(())
/// ```
#[derive(Clone, Copy, Debug, PartialEq, Eq, Hash)]
pub struct DigitGroups {
    binary: usize,
    octal: usize,
    decimal: usize,
    hexadecimal: usize,
    least: usize,
}

impl DigitGroups {
    /// Creates the groups with the size 0 for each base, which leave all numbers unchanged.
    ///
    /// ```
    /// use navyspindle::{rewrite, DigitGroups, Style};
    ///
    /// let style = Style::new().digit_groups(DigitGroups::new());
    /// assert_eq!(rewrite("10_00", style)?, "10_00");
    /// # Ok::<(), navyspindle::ParseError>(())
    /// ```
    #[inline]
    #[must_use]
    pub const fn new() -> Self {
        DigitGroups {
            binary: 0,
            octal: 0,
            decimal: 0,
            hexadecimal: 0,
            least: 0,
        }
    }

    /// Sets the size of the groups of digits after `0b` to `size`.
    ///
    /// ```
    /// use navyspindle::{rewrite, DigitGroups, Style};
    ///
    /// let style = Style::new().digit_groups(DigitGroups::new().binary(8));
    /// assert_eq!(rewrite("0b1_00000000", style)?, "0b1_00000000");
    /// # Ok::<(), navyspindle::ParseError>(())
    /// ```
    #[inline]
    #[must_use]
    pub const fn binary(self, size: usize) -> Self {
        DigitGroups {
            binary: size,
            ..self
        }
    }

    /// Sets the size of the groups of digits after `0o` to `size`.
    ///
    /// ```
    /// use navyspindle::{rewrite, DigitGroups, Style};
    ///
    /// let style = Style::new().digit_groups(DigitGroups::new().octal(3));
    /// assert_eq!(rewrite("0o777777", style)?, "0o777_777");
    /// # Ok::<(), navyspindle::ParseError>(())
    /// ```
    #[inline]
    #[must_use]
    pub const fn octal(self, size: usize) -> Self {
        DigitGroups {
            octal: size,
            ..self
        }
    }

    /// Sets the size of the groups of digits in numbers of base ten, including floats, to `size`.
    ///
    /// ```
    /// use navyspindle::{rewrite, DigitGroups, Style};
    ///
    /// let style = Style::new().digit_groups(DigitGroups::new().decimal(3));
    /// assert_eq!(rewrite("12345.67891e1000", style)?, "12_345.678_91e1000");
    /// # Ok::<(), navyspindle::ParseError>(())
    /// ```
    #[inline]
    #[must_use]
    pub const fn decimal(self, size: usize) -> Self {
        DigitGroups {
            decimal: size,
            ..self
        }
    }

    /// Sets the size of the groups of digits after `0x` to `size`.
    ///
    /// ```
    /// use navyspindle::{rewrite, DigitGroups, Style};
    ///
    /// let style = Style::new().digit_groups(DigitGroups::new().hexadecimal(2));
    /// assert_eq!(rewrite("0xC0FFEE", style)?, "0xC0_FF_EE");
    /// # Ok::<(), navyspindle::ParseError>(())
    /// ```
    #[inline]
    #[must_use]
    pub const fn hexadecimal(self, size: usize) -> Self {
        DigitGroups {
            hexadecimal: size,
            ..self
        }
    }

    /// Sets the smallest number of digits that are grouped. Digits are counted separately in an integer, in a float before its dot,
    /// and in a float after its dot. A shorter sequence of digits has no underscores between its digits.
    ///
    /// ```
    /// use navyspindle::{rewrite, DigitGroups, Style};
    ///
    /// let style = Style::new().digit_groups(DigitGroups::new().decimal(3).min_digits(5));
    /// assert_eq!(rewrite("1_000", style)?, "1000");
    /// assert_eq!(rewrite("10000.0001", style)?, "10_000.0001");
    /// # Ok::<(), navyspindle::ParseError>(())
    /// ```
    #[inline]
    #[must_use]
    pub const fn min_digits(self, digits: usize) -> Self {
        DigitGroups {
            least: digits,
            ..self
        }
    }

    #[cfg(feature = "style")]
    #[inline]
    fn proved(self) -> rl_style::DigitGroups {
        rl_style::DigitGroups {
            binary: self.binary,
            octal: self.octal,
            decimal: self.decimal,
            hexadecimal: self.hexadecimal,
            least: self.least,
        }
    }
}

/// Returns the groups of [`DigitGroups::new`].
impl Default for DigitGroups {
    #[inline]
    fn default() -> Self {
        DigitGroups::new()
    }
}

/// The rules by which [`rewrite`](crate::rewrite) and [`write_integer`](crate::write_integer) write literals. Each rule is set
/// separately, and at first none is set.
///
/// No rule changes a number whose suffix may be mistyped, since `2_32` may be meant as `2_i32`. Such a number has no suffix, and ends
/// with `_8`, `_16`, `_32` or `_64`. It is an integer, or a float with an exponent.
///
/// With the feature `settings`, `Style::from_settings` reads a style from settings.
///
/// ```
/// use navyspindle::{rewrite, Case, Style};
///
/// const STYLE: Style = Style::new().hex_digits(Case::Lower).fewest_hashes(true);
/// assert_eq!(rewrite("0xFFu8", STYLE)?, "0xffu8");
/// assert_eq!(rewrite(r###"r##"a"b"##"###, STYLE)?, r##"r#"a"b"#"##);
/// # Ok::<(), navyspindle::ParseError>(())
/// ```
#[derive(Clone, Copy, Debug, PartialEq, Eq, Hash)]
pub struct Style {
    hex_digits: Option<Case>,
    underscores: bool,
    leading_zeros: bool,
    suffix_separator: Option<Separator>,
    digit_groups: Option<DigitGroups>,
    float_zero: bool,
    exponent_letter: Option<Case>,
    exponent_plus: bool,
    escape_digits: Option<Case>,
    code_digits: bool,
    ascii_escapes: bool,
    named_escapes: bool,
    quote_escapes: bool,
    raw_hashes: bool,
    raw: bool,
    hidden: bool,
}

impl Style {
    /// Creates the style without rules, which leaves literals unchanged.
    ///
    /// ```
    /// use navyspindle::{rewrite, Style};
    ///
    /// assert_eq!(rewrite(r"'\x4a'", Style::new())?, r"'\x4a'");
    /// # Ok::<(), navyspindle::ParseError>(())
    /// ```
    #[inline]
    #[must_use]
    pub const fn new() -> Self {
        Style {
            hex_digits: None,
            underscores: false,
            leading_zeros: false,
            suffix_separator: None,
            digit_groups: None,
            float_zero: false,
            exponent_letter: None,
            exponent_plus: false,
            escape_digits: None,
            code_digits: false,
            ascii_escapes: false,
            named_escapes: false,
            quote_escapes: false,
            raw_hashes: false,
            raw: false,
            hidden: false,
        }
    }

    /// Sets the case of the digits of integers after `0x`.
    ///
    /// ```
    /// use navyspindle::{rewrite, Case, Style};
    ///
    /// let style = Style::new().hex_digits(Case::Upper);
    /// assert_eq!(rewrite("0xdead_beefu32", style)?, "0xDEAD_BEEFu32");
    /// # Ok::<(), navyspindle::ParseError>(())
    /// ```
    #[inline]
    #[must_use]
    pub const fn hex_digits(self, case: Case) -> Self {
        Style {
            hex_digits: Some(case),
            ..self
        }
    }

    /// Sets whether underscores are removed from numbers.
    ///
    /// A number whose suffix begins with `b`, `o` or `x` keeps its underscores. Without them `0_b1` would be a number of another
    /// base.
    ///
    /// ```
    /// use navyspindle::{rewrite, Style};
    ///
    /// let style = Style::new().drop_underscores(true);
    /// assert_eq!(rewrite("1_000_u32", style)?, "1000u32");
    /// assert_eq!(rewrite("1_0.5_0e1_0", style)?, "10.50e10");
    /// assert_eq!(rewrite("0_b1", style)?, "0_b1");
    /// # Ok::<(), navyspindle::ParseError>(())
    /// ```
    #[inline]
    #[must_use]
    pub const fn drop_underscores(self, dropped: bool) -> Self {
        Style {
            underscores: dropped,
            ..self
        }
    }

    /// Sets whether zeros at the start of integers of base ten are removed. An integer whose suffix begins with `b`, `o` or `x`
    /// keeps its zeros. An integer whose digits are all octal keeps them too, since `0123` may be meant as an octal number.
    ///
    /// ```
    /// use navyspindle::{rewrite, Style};
    ///
    /// let style = Style::new().drop_leading_zeros(true);
    /// assert_eq!(rewrite("089_i32", style)?, "89_i32");
    /// assert_eq!(rewrite("0123", style)?, "0123");
    /// assert_eq!(rewrite("0x09", style)?, "0x09");
    /// # Ok::<(), navyspindle::ParseError>(())
    /// ```
    #[inline]
    #[must_use]
    pub const fn drop_leading_zeros(self, dropped: bool) -> Self {
        Style {
            leading_zeros: dropped,
            ..self
        }
    }

    /// Sets the separator between a number and its suffix.
    ///
    /// A number without a suffix loses the underscores at its end. With [`Separator::Nothing`], a number whose suffix begins with
    /// `b`, `o` or `x` keeps its underscores: `0b1` is another number than `0_b1`.
    ///
    /// ```
    /// use navyspindle::{rewrite, Separator, Style};
    ///
    /// let style = Style::new().suffix_separator(Separator::Nothing);
    /// assert_eq!(rewrite("1_000_u32", style)?, "1_000u32");
    /// assert_eq!(rewrite("0_b1", style)?, "0_b1");
    /// let style = Style::new().suffix_separator(Separator::Underscore);
    /// assert_eq!(rewrite("0xffu8", style)?, "0xff_u8");
    /// assert_eq!(rewrite("1.5__f32", style)?, "1.5_f32");
    /// assert_eq!(rewrite("1_", style)?, "1");
    /// # Ok::<(), navyspindle::ParseError>(())
    /// ```
    #[inline]
    #[must_use]
    pub const fn suffix_separator(self, separator: Separator) -> Self {
        Style {
            suffix_separator: Some(separator),
            ..self
        }
    }

    /// Sets the groups of digits in numbers.
    ///
    /// Groups are counted from the last digit. In the fraction of a float they are counted from the first digit. The digits of an
    /// exponent aren't grouped. Zeros at the start are removed before, if [`Style::drop_leading_zeros`] is set.
    ///
    /// With [`Style::drop_underscores`] no other underscores are left. Without it, the underscores at the end of a sequence of
    /// digits stay, such as those before a suffix. A number whose suffix begins with `b`, `o` or `x` is left unchanged.
    ///
    /// ```
    /// use navyspindle::{rewrite, DigitGroups, Style};
    ///
    /// let style = Style::new().digit_groups(DigitGroups::new().decimal(3));
    /// assert_eq!(rewrite("1000_u32", style)?, "1_000_u32");
    /// assert_eq!(rewrite("1000_u32", style.drop_underscores(true))?, "1_000u32");
    /// assert_eq!(rewrite("0009000", style.drop_leading_zeros(true))?, "9_000");
    /// # Ok::<(), navyspindle::ParseError>(())
    /// ```
    #[inline]
    #[must_use]
    pub const fn digit_groups(self, groups: DigitGroups) -> Self {
        Style {
            digit_groups: Some(groups),
            ..self
        }
    }

    /// Sets whether a zero is added to a float that ends with its dot. The number stays the same, but `concat!` makes a different
    /// text of the literal.
    ///
    /// ```
    /// use navyspindle::{rewrite, Style};
    ///
    /// let style = Style::new().float_zero(true);
    /// assert_eq!(rewrite("1.", style)?, "1.0");
    /// assert_eq!(rewrite("1e5", style)?, "1e5");
    /// # Ok::<(), navyspindle::ParseError>(())
    /// ```
    #[inline]
    #[must_use]
    pub const fn float_zero(self, closed: bool) -> Self {
        Style {
            float_zero: closed,
            ..self
        }
    }

    /// Sets the case of the letter before a float's exponent.
    ///
    /// ```
    /// use navyspindle::{rewrite, Case, Style};
    ///
    /// assert_eq!(rewrite("1E5", Style::new().exponent_letter(Case::Lower))?, "1e5");
    /// # Ok::<(), navyspindle::ParseError>(())
    /// ```
    #[inline]
    #[must_use]
    pub const fn exponent_letter(self, case: Case) -> Self {
        Style {
            exponent_letter: Some(case),
            ..self
        }
    }

    /// Sets whether the `+` of a float's exponent is removed.
    ///
    /// ```
    /// use navyspindle::{rewrite, Style};
    ///
    /// assert_eq!(rewrite("1e+5", Style::new().drop_exponent_plus(true))?, "1e5");
    /// # Ok::<(), navyspindle::ParseError>(())
    /// ```
    #[inline]
    #[must_use]
    pub const fn drop_exponent_plus(self, dropped: bool) -> Self {
        Style {
            exponent_plus: dropped,
            ..self
        }
    }

    /// Sets the case of the digits of `\x` and `\u{..}`.
    ///
    /// ```
    /// use navyspindle::{rewrite, Case, Style};
    ///
    /// let style = Style::new().escape_digits(Case::Lower);
    /// assert_eq!(rewrite(r#""\x1B\u{1F600}""#, style)?, r#""\x1b\u{1f600}""#);
    /// # Ok::<(), navyspindle::ParseError>(())
    /// ```
    #[inline]
    #[must_use]
    pub const fn escape_digits(self, case: Case) -> Self {
        Style {
            escape_digits: Some(case),
            ..self
        }
    }

    /// Sets whether `\u{..}` has the fewest digits, without underscores and without zeros at the start.
    ///
    /// ```
    /// use navyspindle::{rewrite, Style};
    ///
    /// let style = Style::new().fewest_escape_digits(true);
    /// assert_eq!(rewrite(r#""\u{00e9}\u{1_F600_}\u{00}""#, style)?, r#""\u{e9}\u{1F600}\u{0}""#);
    /// # Ok::<(), navyspindle::ParseError>(())
    /// ```
    #[inline]
    #[must_use]
    pub const fn fewest_escape_digits(self, fewest: bool) -> Self {
        Style {
            code_digits: fewest,
            ..self
        }
    }

    /// Sets whether a numeric escape is replaced by its character, if the character is visible ASCII, from `!` to `~`.
    ///
    /// The quote that closes the literal, and a backslash, are written with a backslash. A space stays an escape, because it would
    /// be dropped after an escaped line end.
    ///
    /// ```
    /// use navyspindle::{rewrite, Style};
    ///
    /// let style = Style::new().drop_ascii_escapes(true);
    /// assert_eq!(rewrite(r#""\x41\u{2d}\x5a\x20""#, style)?, r#""A-Z\x20""#);
    /// assert_eq!(rewrite(r#""\x22\x27\x5c""#, style)?, r#""\"'\\""#);
    /// # Ok::<(), navyspindle::ParseError>(())
    /// ```
    #[inline]
    #[must_use]
    pub const fn drop_ascii_escapes(self, dropped: bool) -> Self {
        Style {
            ascii_escapes: dropped,
            ..self
        }
    }

    /// Sets whether numeric escapes of LF, CR, TAB and NUL are replaced by `\n`, `\r`, `\t` and `\0`.
    ///
    /// NUL stays a numeric escape before a digit, or before an escape whose value is a digit: `\01` is octal in other languages.
    ///
    /// ```
    /// use navyspindle::{rewrite, Style};
    ///
    /// let style = Style::new().named_escapes(true);
    /// assert_eq!(rewrite(r#""\x0d\u{a}\x09\x00""#, style)?, r#""\r\n\t\0""#);
    /// assert_eq!(rewrite(r#""\x001""#, style)?, r#""\x001""#);
    /// # Ok::<(), navyspindle::ParseError>(())
    /// ```
    #[inline]
    #[must_use]
    pub const fn named_escapes(self, named: bool) -> Self {
        Style {
            named_escapes: named,
            ..self
        }
    }

    /// Sets whether the backslash is removed before a quote that doesn't close its literal.
    ///
    /// ```
    /// use navyspindle::{rewrite, Style};
    ///
    /// let style = Style::new().drop_quote_escapes(true);
    /// assert_eq!(rewrite(r#""a\'b\"c""#, style)?, r#""a'b\"c""#);
    /// assert_eq!(rewrite(r#"'\"'"#, style)?, r#"'"'"#);
    /// # Ok::<(), navyspindle::ParseError>(())
    /// ```
    #[inline]
    #[must_use]
    pub const fn drop_quote_escapes(self, dropped: bool) -> Self {
        Style {
            quote_escapes: dropped,
            ..self
        }
    }

    /// Sets whether raw strings have the fewest `#` that their text needs.
    ///
    /// ```
    /// use navyspindle::{rewrite, Style};
    ///
    /// let style = Style::new().fewest_hashes(true);
    /// assert_eq!(rewrite(r###"r##"a"##"###, style)?, r#"r"a""#);
    /// # Ok::<(), navyspindle::ParseError>(())
    /// ```
    #[inline]
    #[must_use]
    pub const fn fewest_hashes(self, fewest: bool) -> Self {
        Style {
            raw_hashes: fewest,
            ..self
        }
    }

    /// Sets whether the `r` and the hashes are removed from raw strings that contain neither a backslash nor a quote.
    ///
    /// After a hash or a dot, a raw string without the prefix `b` or `c` is left unchanged ([`rewrite_in_context`](crate::rewrite_in_context)).
    ///
    /// ```
    /// use navyspindle::{rewrite, Style};
    ///
    /// let style = Style::new().drop_raw(true);
    /// assert_eq!(rewrite(r###"r#"a"#"###, style)?, r#""a""#);
    /// assert_eq!(rewrite(r#"br"\d""#, style)?, r#"br"\d""#);
    /// # Ok::<(), navyspindle::ParseError>(())
    /// ```
    #[inline]
    #[must_use]
    pub const fn drop_raw(self, dropped: bool) -> Self {
        Style {
            raw: dropped,
            ..self
        }
    }

    /// Sets whether invisible and bidirectional characters are replaced by numeric escapes.
    ///
    /// These characters are the control characters except LF and TAB, the characters that change the direction of text, and those
    /// without a width, such as a joiner of emoji. The variation selectors from U+FE00 to U+FE0F aren't replaced.
    ///
    /// A raw string that contains such a character becomes a string with escapes. A raw string without the prefix `b` or `c` that
    /// follows a hash or a dot is left unchanged ([`rewrite_in_context`](crate::rewrite_in_context)).
    ///
    /// ```
    /// use navyspindle::{rewrite, Style};
    ///
    /// let style = Style::new().escape_invisible(true);
    /// assert_eq!(rewrite("\"a\u{202e}\u{1b}\"", style)?, r#""a\u{202e}\x1b""#);
    /// assert_eq!(rewrite("r\"\\d\u{feff}\"", style)?, r#""\\d\u{feff}""#);
    /// # Ok::<(), navyspindle::ParseError>(())
    /// ```
    #[inline]
    #[must_use]
    pub const fn escape_invisible(self, escaped: bool) -> Self {
        Style {
            hidden: escaped,
            ..self
        }
    }

    #[cfg(feature = "style")]
    #[inline]
    pub(crate) fn proved(self) -> rl_style::Style {
        rl_style::Style {
            hex_digits: self.hex_digits.map(Case::proved),
            underscores: self.underscores,
            leading_zeros: self.leading_zeros,
            suffix_separator: self.suffix_separator.map(Separator::proved),
            digit_groups: self.digit_groups.map(DigitGroups::proved),
            float_zero: self.float_zero,
            exponent_letter: self.exponent_letter.map(Case::proved),
            exponent_plus: self.exponent_plus,
            escape_digits: self.escape_digits.map(Case::proved),
            code_digits: self.code_digits,
            ascii_escapes: self.ascii_escapes,
            named_escapes: self.named_escapes,
            quote_escapes: self.quote_escapes,
            raw_hashes: self.raw_hashes,
            raw: self.raw,
            hidden: self.hidden,
        }
    }
}

#[cfg(feature = "writers")]
impl Style {
    /// Returns the style of written integers of this base.
    #[inline]
    pub(crate) fn of_integers(self, base: Base) -> rl_writing::IntegerStyle {
        let groups = self.digit_groups.unwrap_or_default();
        let (base, group) = match base {
            Base::Binary => (rl_writing::Base::Binary, groups.binary),
            Base::Octal => (rl_writing::Base::Octal, groups.octal),
            Base::Decimal => (rl_writing::Base::Decimal, groups.decimal),
            Base::Hexadecimal => (rl_writing::Base::Hexadecimal, groups.hexadecimal),
        };
        rl_writing::IntegerStyle {
            base,
            upper: self.hex_digits == Some(Case::Upper),
            group,
            least: groups.least,
        }
    }
}

/// Returns the style of [`Style::new`].
impl Default for Style {
    #[inline]
    fn default() -> Self {
        Style::new()
    }
}
