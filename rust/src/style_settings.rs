//! Styles that are read from settings or from a configuration file.

use crate::lit::Lit;
use crate::setting::{no_such, without_suffix, Key, SettingError, Settings};
use crate::style::{Case, DigitGroups, Separator, Style};

/// The values that a setting for the case of letters may have.
const CASES: [(&str, Case); 2] = [("lower", Case::Lower), ("upper", Case::Upper)];

/// The values that a setting for the separator before a suffix may have.
const SEPARATORS: [(&str, Separator); 2] = [("", Separator::Nothing), ("_", Separator::Underscore)];

const CASE: &str = "\"lower\" or \"upper\"";
const TRUTH: &str = "true or false";
const SIZE: &str = "how many digits";

/// Defines a key for each setting of a style, and the array of them all.
macro_rules! keys {
    ($count:literal: $($key:ident $name:literal $expected:expr,)*) => {
        $(const $key: Key = Key::new($name, $expected);)*
        const KEYS: [Key; $count] = [$($key),*];
    };
}

keys! {
    20:
    HEX_DIGITS "hex_digits" CASE,
    DROP_UNDERSCORES "drop_underscores" TRUTH,
    DROP_LEADING_ZEROS "drop_leading_zeros" TRUTH,
    SUFFIX_SEPARATOR "suffix_separator" "\"\" or \"_\"",
    BINARY_GROUPS "binary_groups" SIZE,
    OCTAL_GROUPS "octal_groups" SIZE,
    DECIMAL_GROUPS "decimal_groups" SIZE,
    HEXADECIMAL_GROUPS "hexadecimal_groups" SIZE,
    MIN_DIGITS "min_digits" SIZE,
    FLOAT_ZERO "float_zero" TRUTH,
    EXPONENT_LETTER "exponent_letter" CASE,
    DROP_EXPONENT_PLUS "drop_exponent_plus" TRUTH,
    ESCAPE_DIGITS "escape_digits" CASE,
    FEWEST_ESCAPE_DIGITS "fewest_escape_digits" TRUTH,
    DROP_ASCII_ESCAPES "drop_ascii_escapes" TRUTH,
    NAMED_ESCAPES "named_escapes" TRUTH,
    DROP_QUOTE_ESCAPES "drop_quote_escapes" TRUTH,
    FEWEST_HASHES "fewest_hashes" TRUTH,
    DROP_RAW "drop_raw" TRUTH,
    ESCAPE_INVISIBLE "escape_invisible" TRUTH,
}

/// Returns the value that belongs to the setting's string in `words`, or `None` if the setting isn't set. Another string is an
/// error of the kind `Kind`.
fn word_of<V: Copy>(
    settings: &Settings<'_>,
    key: Key,
    words: &[(&str, V)],
) -> Result<Option<V>, SettingError> {
    settings.value_of(key, |entry| {
        let Lit::Str(literal) = &entry.value else {
            return Err(no_such(key, entry));
        };
        let word = without_suffix(key, entry, literal.value())?;
        match words.iter().find(|(name, _)| *name == word) {
            Some((_, value)) => Ok(*value),
            None => Err(no_such(key, entry)),
        }
    })
}

/// Whether the setting is `true`. A setting that isn't set counts as `false`.
#[inline]
fn is_true(settings: &Settings<'_>, key: Key) -> Result<bool, SettingError> {
    Ok(settings.bool(key)?.unwrap_or(false))
}

/// Returns the setting's number, or 0 if it isn't set.
#[inline]
fn size_of(settings: &Settings<'_>, key: Key) -> Result<usize, SettingError> {
    Ok(settings.number(key)?.unwrap_or(0))
}

#[inline]
fn groups_of(settings: &Settings<'_>) -> Result<DigitGroups, SettingError> {
    Ok(DigitGroups::new()
        .binary(size_of(settings, BINARY_GROUPS)?)
        .octal(size_of(settings, OCTAL_GROUPS)?)
        .decimal(size_of(settings, DECIMAL_GROUPS)?)
        .hexadecimal(size_of(settings, HEXADECIMAL_GROUPS)?)
        .min_digits(size_of(settings, MIN_DIGITS)?))
}

/// Returns the style with the rules whose settings are `true`.
#[inline]
fn truths_of(settings: &Settings<'_>) -> Result<Style, SettingError> {
    Ok(Style::new()
        .drop_underscores(is_true(settings, DROP_UNDERSCORES)?)
        .drop_leading_zeros(is_true(settings, DROP_LEADING_ZEROS)?)
        .float_zero(is_true(settings, FLOAT_ZERO)?)
        .drop_exponent_plus(is_true(settings, DROP_EXPONENT_PLUS)?)
        .fewest_escape_digits(is_true(settings, FEWEST_ESCAPE_DIGITS)?)
        .drop_ascii_escapes(is_true(settings, DROP_ASCII_ESCAPES)?)
        .named_escapes(is_true(settings, NAMED_ESCAPES)?)
        .drop_quote_escapes(is_true(settings, DROP_QUOTE_ESCAPES)?)
        .fewest_hashes(is_true(settings, FEWEST_HASHES)?)
        .drop_raw(is_true(settings, DROP_RAW)?)
        .escape_invisible(is_true(settings, ESCAPE_INVISIBLE)?))
}

impl Style {
    /// Returns the style that settings or a configuration file describe.
    ///
    /// Each rule has the name of its method in `Style`. A case is `"lower"` or `"upper"`, a separator is `""` or `"_"`, and the
    /// other rules are `true` or `false`. The settings for [`digit_groups`](Style::digit_groups) are `binary_groups`,
    /// `octal_groups`, `decimal_groups`, `hexadecimal_groups` and `min_digits`, which are numbers. A rule that isn't set changes
    /// nothing.
    ///
    /// # Errors
    ///
    /// Returns the error `Unknown` for the first name that isn't a rule's. Otherwise returns the errors of the values, as
    /// [`Settings::string`], [`Settings::number`] and [`Settings::bool`] do. A string that isn't one of the listed values is an
    /// error of the kind `Kind`.
    ///
    /// ```
    /// use navyspindle::{rewrite, Settings, Style};
    ///
    /// let read = Settings::read(r#"hex_digits = "lower", decimal_groups = 3, drop_raw = true"#)?;
    /// let style = Style::from_settings(&read)?;
    /// assert_eq!(rewrite("0xFF", style).unwrap(), "0xff");
    /// assert_eq!(rewrite("10000", style).unwrap(), "10_000");
    /// let error = Style::from_settings(&Settings::read(r#"hex_digits = "small""#)?).unwrap_err();
    /// assert_eq!(error.to_string(), r#"hex_digits: expected "lower" or "upper" at byte 13"#);
    /// # Ok::<(), navyspindle::SettingError>(())
    /// ```
    #[inline]
    pub fn from_settings(settings: &Settings<'_>) -> Result<Self, SettingError> {
        settings.check(&KEYS)?;
        let mut style = truths_of(settings)?;
        let groups = groups_of(settings)?;
        if groups != DigitGroups::new() {
            style = style.digit_groups(groups);
        }
        if let Some(case) = word_of(settings, HEX_DIGITS, &CASES)? {
            style = style.hex_digits(case);
        }
        if let Some(case) = word_of(settings, EXPONENT_LETTER, &CASES)? {
            style = style.exponent_letter(case);
        }
        if let Some(case) = word_of(settings, ESCAPE_DIGITS, &CASES)? {
            style = style.escape_digits(case);
        }
        if let Some(separator) = word_of(settings, SUFFIX_SEPARATOR, &SEPARATORS)? {
            style = style.suffix_separator(separator);
        }
        Ok(style)
    }
}
