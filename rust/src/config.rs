//! Configuration files: settings that are separated by line ends or commas, with names that may have dots. Also the methods of
//! [`Settings`] that return characters, bytes, byte strings and C strings.

use crate::common::shifted;
use crate::help::Separators;
use crate::lit::Lit;
use crate::rl_cursors::{first_error, next_config_entry, EntryRejection, EntryStep, NextEntry};
use crate::rl_lexer::{without_byte_order_mark, Tokens};
use crate::setting::{no_such, without_suffix, Key, SettingError, Settings};
use crate::settings::{entry_of, of_lexer, rejected, repeated, Entry};
use alloc::borrow::Cow;
use alloc::collections::BTreeSet;
use alloc::ffi::CString;
use alloc::vec::Vec;

/// Returns the settings of a configuration file, in the order of the text. Each setting is a name, `=` and a literal. A comma or a
/// line end separates two settings.
///
/// A name is an identifier, or several identifiers with dots between them, such as `server.port`. No white space or comment may be
/// beside a dot. `server` and `server.port` are different names. No two settings have the same name.
///
/// A value is followed by a comma, by the end of its line, or by the end of the text. Its line ends if an LF occurs before the next
/// token; that LF may be inside a block comment. White space, empty lines and plain comments (`//`, `/* */`) may be anywhere
/// between tokens, but not inside names. A byte order mark at the start of the text is skipped, and byte offsets count it.
///
/// A value is one Rust literal, as in [`parse_settings`](crate::parse_settings), with an optional minus before a number. Arrays,
/// tables and comments with `#` aren't supported. For a file that needs them, use the crate `toml`.
///
/// # Errors
///
/// Returns the first error of the whole text if it can't be divided into tokens, or if a group isn't closed correctly.
///
/// Otherwise returns an error for the first missing part, from left to right: a name, a name that isn't repeated, `=`, a literal,
/// or a comma if the line continues after a value.
///
/// A name is missing at a dot in three cases. If white space, a comment or another token is before the dot, the error is at the dot
/// (`a .b`). If no identifier follows the dot, the error is at the next token, or at the text's end (`a. = 1`). If white space or a
/// comment is between the dot and an identifier, the error is at the dot (`a. b`).
///
/// ```
/// use navyspindle::{parse_config, LineIndex, Lit};
///
/// let text = "\u{feff}title = \"a\" // of the page\n\nserver.host = \"b\", server.port = 8080\n";
/// let entries = parse_config(text)?;
/// let names: Vec<_> = entries.iter().map(|entry| entry.name).collect();
/// assert_eq!(names, ["title", "server.host", "server.port"]);
/// assert_eq!(entries[2].value, Lit::of_text("8080"));
/// assert_eq!(&text[entries[2].name_range.clone()], "server.port");
/// assert_eq!(LineIndex::new(text).line_column(entries[2].value_range.start).to_string(), "3:34");
/// # Ok::<(), navyspindle::SettingError>(())
/// ```
#[inline]
pub fn parse_config(text: &str) -> Result<Vec<Entry<'_>>, SettingError> {
    let body = without_byte_order_mark(text);
    let front = text.len() - body.len();
    let mut entries = entries_of(body).map_err(|error| error.shifted(front))?;
    for entry in &mut entries {
        entry.name_range = shifted(entry.name_range.clone(), front);
        entry.value_range = shifted(entry.value_range.clone(), front);
    }
    Ok(entries)
}

/// Returns the settings of a configuration text without a byte order mark.
#[inline]
fn entries_of(text: &str) -> Result<Vec<Entry<'_>>, SettingError> {
    let separators = Separators::CommasAndLines;
    if let Some(error) = first_error(text) {
        return Err(of_lexer(text, error, separators));
    }
    let mut tokens = Tokens::new(text);
    let (mut entries, mut names) = (Vec::new(), BTreeSet::new());
    loop {
        match next_config_entry(&mut tokens, text) {
            EntryStep::End => return Ok(entries),
            EntryStep::Entry(NextEntry { name, value }) => {
                let range = name.lo..name.hi;
                if !names.insert(name.text) {
                    return Err(repeated(name.text, range));
                }
                entries.push(entry_of(text, name.text, range, value));
            }
            EntryStep::Rejected(EntryRejection { name, error }) => {
                let name = name.map(|name| (name.text, name.lo..name.hi));
                return Err(rejected(&names, name, error, text, separators));
            }
        }
    }
}

impl<'t> Settings<'t> {
    /// Reads the settings of a configuration file with [`parse_config`].
    ///
    /// # Errors
    ///
    /// Returns the errors of [`parse_config`], as the kinds `Syntax` and `Repeated`.
    ///
    /// ```
    /// use navyspindle::{Key, Settings};
    ///
    /// const PORT: Key = Key::new("server.port", "an integer from 0 to 65535");
    /// let read = Settings::read_config("title = \"a\"\nserver.port = 8080\n")?;
    /// assert_eq!(read.number::<u16>(PORT)?, Some(8080));
    /// # Ok::<(), navyspindle::SettingError>(())
    /// ```
    #[inline]
    pub fn read_config(text: &'t str) -> Result<Self, SettingError> {
        Ok(Settings::of_entries(text, parse_config(text)?))
    }

    /// Returns the value of a character literal, or `None` if the setting isn't set.
    ///
    /// # Errors
    ///
    /// Returns an error if the value isn't a character (`Kind`), if Rust rejects it (`Literal`), or if it has a suffix (`Suffix`).
    ///
    /// ```
    /// use navyspindle::{Key, Settings};
    ///
    /// const QUOTE: Key = Key::new("quote", "a character");
    /// assert_eq!(Settings::read_config(r"quote = '\u{ab}'")?.char(QUOTE)?, Some('«'));
    /// assert_eq!(Settings::read_config("")?.char(QUOTE)?, None);
    /// let error = Settings::read_config(r#"quote = "a""#)?.char(QUOTE).unwrap_err();
    /// assert_eq!(error.to_string(), "quote: expected a character at byte 8");
    /// # Ok::<(), navyspindle::SettingError>(())
    /// ```
    #[inline]
    pub fn char(&self, key: Key) -> Result<Option<char>, SettingError> {
        self.value_of(key, |entry| match &entry.value {
            Lit::Char(literal) => without_suffix(key, entry, literal.value()),
            _ => Err(no_such(key, entry)),
        })
    }

    /// Returns the value of a byte literal, or `None` if the setting isn't set.
    ///
    /// # Errors
    ///
    /// Returns an error if the value isn't a byte (`Kind`), if Rust rejects it (`Literal`), or if it has a suffix (`Suffix`).
    ///
    /// ```
    /// use navyspindle::{Key, Settings};
    ///
    /// const END: Key = Key::new("end", "a byte");
    /// assert_eq!(Settings::read_config(r"end = b'\n'")?.byte(END)?, Some(10));
    /// assert_eq!(Settings::read_config("")?.byte(END)?, None);
    /// assert!(Settings::read_config("end = 10")?.byte(END).is_err());
    /// # Ok::<(), navyspindle::SettingError>(())
    /// ```
    #[inline]
    pub fn byte(&self, key: Key) -> Result<Option<u8>, SettingError> {
        self.value_of(key, |entry| match &entry.value {
            Lit::Byte(literal) => without_suffix(key, entry, literal.value()),
            _ => Err(no_such(key, entry)),
        })
    }

    /// Returns the value of a byte string literal, or `None` if the setting isn't set.
    ///
    /// # Errors
    ///
    /// Returns an error if the value isn't a byte string (`Kind`), if Rust rejects it (`Literal`), or if it has a suffix
    /// (`Suffix`).
    ///
    /// ```
    /// use navyspindle::{Key, Settings};
    ///
    /// const MAGIC: Key = Key::new("magic", "a byte string");
    /// let read = Settings::read_config(r#"magic = b"\x89PNG""#)?;
    /// assert_eq!(read.byte_string(MAGIC)?.as_deref(), Some(&b"\x89PNG"[..]));
    /// assert_eq!(Settings::read_config("")?.byte_string(MAGIC)?, None);
    /// assert!(Settings::read_config(r#"magic = "PNG""#)?.byte_string(MAGIC).is_err());
    /// # Ok::<(), navyspindle::SettingError>(())
    /// ```
    #[inline]
    pub fn byte_string(&self, key: Key) -> Result<Option<Cow<'_, [u8]>>, SettingError> {
        self.value_of(key, |entry| match &entry.value {
            Lit::ByteStr(literal) => without_suffix(key, entry, literal.value()),
            _ => Err(no_such(key, entry)),
        })
    }

    /// Returns the value of a C string literal, or `None` if the setting isn't set.
    ///
    /// # Errors
    ///
    /// Returns an error if the value isn't a C string (`Kind`), if Rust rejects it (`Literal`), or if it has a suffix (`Suffix`).
    ///
    /// ```
    /// use navyspindle::{Key, Settings};
    ///
    /// const LIBRARY: Key = Key::new("library", "a C string");
    /// let read = Settings::read_config(r#"library = c"libé.so""#)?;
    /// assert_eq!(read.c_string(LIBRARY)?.as_deref(), Some(c"libé.so"));
    /// assert_eq!(Settings::read_config("")?.c_string(LIBRARY)?, None);
    /// assert!(Settings::read_config(r#"library = "lib.so""#)?.c_string(LIBRARY).is_err());
    /// # Ok::<(), navyspindle::SettingError>(())
    /// ```
    #[inline]
    pub fn c_string(&self, key: Key) -> Result<Option<CString>, SettingError> {
        self.value_of(key, |entry| match &entry.value {
            Lit::CStr(literal) => without_suffix(key, entry, literal.c_string()),
            _ => Err(no_such(key, entry)),
        })
    }
}
