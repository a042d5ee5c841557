//! Settings: names that are set to literals, with commas between them.

use crate::error::range_at;
use crate::help::{help_of, Separators};
use crate::lit::Lit;
use crate::next_literal::placed;
use crate::rl_cursors::NextLiteral;
use crate::rl_cursors::{
    first_error, lexer_error, next_setting, NextSetting, SettingRejection, SettingStep, SyntaxError,
};
use crate::rl_lexer::{LexError, Tokens};
use crate::setting::{SettingError, SettingErrorKind};
use alloc::collections::BTreeSet;
use alloc::string::String;
use alloc::vec::Vec;
use core::ops::Range;

/// A setting: a name, and the literal that it is set to. See [`parse_settings`] and [`parse_config`](crate::parse_config).
///
/// ```
/// use navyspindle::{parse_settings, Entry};
///
/// let entries: Vec<Entry> = parse_settings("port = -1")?;
/// let Entry { name, value, value_range, .. } = &entries[0];
/// assert_eq!((*name, value.text(), value_range), ("port", "-1", &(7..9)));
/// # Ok::<(), navyspindle::SettingError>(())
/// ```
#[derive(Clone, Debug, PartialEq, Eq, Hash)]
#[non_exhaustive]
pub struct Entry<'t> {
    /// The setting's name.
    pub name: &'t str,
    /// The byte range of the name in the text.
    pub name_range: Range<usize>,
    /// The setting's value, as `syn` reads it, with the minus of a number. A literal token without a value is [`Lit::Verbatim`].
    /// [`Lit::check`] returns whether Rust accepts the literal too.
    pub value: Lit<'t>,
    /// The byte range of the value in the text. If the value has a minus, the range begins at the minus.
    pub value_range: Range<usize>,
}

/// Returns the error of the lexer. The range is that of the token at the error.
#[cold]
#[inline]
pub(crate) fn of_lexer(text: &str, error: LexError, separators: Separators) -> SettingError {
    let kind = lexer_error(error.kind);
    let help = help_of(kind, text, error.at, separators);
    SettingError::of(
        SettingErrorKind::Syntax(kind),
        range_at(text, error.at),
        help,
    )
}

/// Returns the error that the name `name` at the range `range` is repeated.
#[cold]
#[inline]
pub(crate) fn repeated(name: &str, range: Range<usize>) -> SettingError {
    SettingError::of(SettingErrorKind::Repeated(String::from(name)), range, None)
}

/// Returns the settings of a text, in order. Each setting is a name, `=` and a literal. Commas separate settings, and a comma may
/// follow the last one. White space and plain comments may be between any two tokens. No two settings have the same name.
///
/// # Errors
///
/// The kind of an error is `Repeated` for a repeated name, and `Syntax` otherwise.
///
/// Returns the first error of the whole text if it can't be divided into tokens, or if a group isn't closed correctly.
///
/// Otherwise returns an error for the first missing part, from left to right: a name, a name that isn't repeated, `=`, a literal,
/// or a comma.
///
/// ```
/// use navyspindle::{parse_settings, Lit, LineIndex};
///
/// let text = "host = \"a\", // the server\nport = 8080,";
/// let entries = parse_settings(text)?;
/// let Lit::Int(port) = &entries[1].value else { panic!() };
/// assert_eq!((entries[1].name, port.value::<u16>()), ("port", Ok(8080)));
/// assert_eq!(LineIndex::new(text).line_column(entries[1].value_range.start).to_string(), "2:8");
/// # Ok::<(), navyspindle::SettingError>(())
/// ```
#[inline]
pub fn parse_settings(text: &str) -> Result<Vec<Entry<'_>>, SettingError> {
    if let Some(error) = first_error(text) {
        return Err(of_lexer(text, error, Separators::Commas));
    }
    let mut tokens = Tokens::new(text);
    let (mut entries, mut names) = (Vec::new(), BTreeSet::new());
    loop {
        match next_setting(&mut tokens, text.len()) {
            SettingStep::End => return Ok(entries),
            SettingStep::Setting(NextSetting { name, value }) => {
                let range = name.lo..name.hi;
                if !names.insert(name.text) {
                    return Err(repeated(name.text, range));
                }
                entries.push(entry_of(text, name.text, range, value));
            }
            SettingStep::Rejected(SettingRejection { name, error }) => {
                let name = name.map(|name| (name.text, name.lo..name.hi));
                return Err(rejected(&names, name, error, text, Separators::Commas));
            }
        }
    }
}

/// Creates the entry with this name, name's range and value.
#[inline]
pub(crate) fn entry_of<'t>(
    text: &'t str,
    name: &'t str,
    name_range: Range<usize>,
    value: NextLiteral<'t>,
) -> Entry<'t> {
    let (value_range, value) = placed(text, value);
    Entry {
        name,
        name_range,
        value,
        value_range,
    }
}

/// Returns the error for a text that doesn't continue with a setting. If the next setting's name is one of `names`, the error is
/// that it is repeated. Otherwise the error is `error`.
#[cold]
#[inline]
pub(crate) fn rejected(
    names: &BTreeSet<&str>,
    name: Option<(&str, Range<usize>)>,
    error: SyntaxError,
    text: &str,
    separators: Separators,
) -> SettingError {
    match name {
        Some((name, range)) if names.contains(name) => repeated(name, range),
        _ => {
            let help = help_of(error.kind, text, error.lo, separators);
            let kind = SettingErrorKind::Syntax(error.kind);
            SettingError::of(kind, error.lo..error.hi, help)
        }
    }
}
