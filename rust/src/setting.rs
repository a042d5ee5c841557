//! Typed access to settings by name: `Settings` and the keys that a program knows.

use crate::common::shifted;
use crate::error::SyntaxErrorKind;
use crate::help::STRING;
use crate::lit::Lit;
use crate::parse_error::ParseError;
use crate::settings::{parse_settings, Entry};
use crate::similar::similar;
use crate::value::{Number, ValueError};
use alloc::borrow::Cow;
use alloc::string::{String, ToString};
use alloc::vec::{self, Vec};
use core::fmt;
use core::ops::Range;
use core::slice;

/// A setting that a program knows: its name, and a description of the expected value. Error messages contain both texts.
///
/// ```
/// use navyspindle::Key;
///
/// const PORT: Key = Key::new("port", "an integer from 0 to 65535");
/// assert_eq!(PORT.to_string(), "port: expected an integer from 0 to 65535");
/// ```
#[derive(Clone, Copy, Debug, PartialEq, Eq, Hash)]
#[non_exhaustive]
pub struct Key {
    /// The setting's name.
    pub name: &'static str,
    /// A description of the expected value, such as `an integer from 0 to 65535`.
    pub expected: &'static str,
}

impl Key {
    /// Creates a key from the setting's name and a description of the expected value.
    ///
    /// ```
    /// use navyspindle::Key;
    ///
    /// const HOST: Key = Key::new("host", "a string");
    /// assert_eq!((HOST.name, HOST.expected), ("host", "a string"));
    /// ```
    #[inline]
    #[must_use]
    pub const fn new(name: &'static str, expected: &'static str) -> Self {
        Key { name, expected }
    }
}

/// Prints the setting's name and the expected value, as `NAME: expected VALUE`.
impl fmt::Display for Key {
    fn fmt(&self, f: &mut fmt::Formatter<'_>) -> fmt::Result {
        write!(f, "{}: expected {}", self.name, self.expected)
    }
}

/// The kind of an error of settings: invalid text, an unknown, repeated or missing name, or a wrong value.
///
/// ```
/// use navyspindle::{Key, SettingErrorKind, Settings};
///
/// let port = Key::new("port", "an integer from 0 to 65535");
/// let read = Settings::read("port = true")?;
/// assert_eq!(*read.number::<u16>(port).unwrap_err().kind(), SettingErrorKind::Kind(port));
/// # Ok::<(), navyspindle::SettingError>(())
/// ```
#[derive(Clone, Debug, PartialEq, Eq, Hash)]
#[non_exhaustive]
pub enum SettingErrorKind {
    /// The text can't be parsed as settings.
    Syntax(SyntaxErrorKind),
    /// The setting with this name is set twice.
    Repeated(String),
    /// The setting's name is unknown to the program.
    Unknown(String),
    /// Rust rejects the value, because it isn't a literal or because only `syn` reads it as one. The ranges of the `ParseError` are
    /// byte offsets in the value's own text.
    Literal(Key, ParseError),
    /// The value has a suffix, and isn't a number. Only numbers may have a suffix.
    Suffix(Key),
    /// The value is a literal of another kind than the expected one.
    Kind(Key),
    /// The number isn't a value of the requested type. The range of the `ValueError` has byte offsets in the value's own text.
    Value(Key, ValueError),
    /// The required setting with this key isn't set.
    Missing(Key),
}

impl fmt::Display for SettingErrorKind {
    fn fmt(&self, f: &mut fmt::Formatter<'_>) -> fmt::Result {
        match self {
            SettingErrorKind::Syntax(kind) => kind.fmt(f),
            SettingErrorKind::Repeated(name) => write!(f, "{} `{name}`", SyntaxErrorKind::Repeated),
            SettingErrorKind::Unknown(name) => write!(f, "unknown name `{name}`"),
            SettingErrorKind::Literal(key, error) => write!(f, "{key}: {}", error.kind()),
            SettingErrorKind::Suffix(key) => write!(f, "{key}: unexpected suffix"),
            SettingErrorKind::Kind(key) => key.fmt(f),
            SettingErrorKind::Value(key, error) => write!(f, "{key}: {}", error.message()),
            SettingErrorKind::Missing(key) => write!(f, "missing {key}"),
        }
    }
}

/// The source is the `ParseError` of an invalid literal, or the `ValueError` of a number of another type.
impl core::error::Error for SettingErrorKind {
    #[inline]
    fn source(&self) -> Option<&(dyn core::error::Error + 'static)> {
        match self {
            SettingErrorKind::Literal(_, error) => Some(error),
            SettingErrorKind::Value(_, error) => Some(error),
            _ => None,
        }
    }
}

/// An error of settings, with its byte range in the text. [`parse_settings`](fn@parse_settings), [`parse_config`](crate::parse_config)
/// and [`Settings`] return it.
///
/// ```
/// use navyspindle::{Key, Settings};
///
/// let port = Key::new("port", "an integer from 0 to 65535");
/// let error = Settings::read("port = 70000")?.number::<u16>(port).unwrap_err();
/// assert_eq!(error.range(), 7..12);
/// let words = "port: expected an integer from 0 to 65535: number out of range for u16 at byte 7";
/// assert_eq!(error.to_string(), words);
/// # Ok::<(), navyspindle::SettingError>(())
/// ```
#[derive(Clone, Debug, PartialEq, Eq, Hash)]
pub struct SettingError {
    kind: SettingErrorKind,
    range: Range<usize>,
    help: Option<&'static str>,
    // The known name that is most like an unknown one.
    similar: Option<&'static str>,
}

impl SettingError {
    #[inline]
    pub(crate) fn of(
        kind: SettingErrorKind,
        range: Range<usize>,
        help: Option<&'static str>,
    ) -> SettingError {
        SettingError {
            kind,
            range,
            help,
            similar: None,
        }
    }

    /// Returns the kind of the error.
    ///
    /// ```
    /// use navyspindle::{SettingErrorKind, Settings};
    ///
    /// let error = Settings::read("prt = 1")?.check(&[]).unwrap_err();
    /// assert_eq!(*error.kind(), SettingErrorKind::Unknown("prt".to_string()));
    /// # Ok::<(), navyspindle::SettingError>(())
    /// ```
    #[inline]
    #[must_use]
    pub fn kind(&self) -> &SettingErrorKind {
        &self.kind
    }

    /// Returns the byte range of the wrong part of the settings' text:
    ///
    /// - for an unknown or repeated name, the name;
    /// - for a value that Rust rejects, the part that it rejects;
    /// - for an incomplete number such as `1e`, and for an integer above 128 bits without a suffix, the empty range at its end;
    /// - for another wrong value, the value, or the part of it that is wrong, such as its suffix;
    /// - for a missing setting, the empty range at the text's end;
    /// - for a quote that isn't closed, the range from the quote to the text's end.
    ///
    /// ```
    /// use navyspindle::{Key, Settings};
    ///
    /// let host = Key::new("host", "a string");
    /// assert_eq!(Settings::read(r#"host = "a\qb""#)?.string(host).unwrap_err().range(), 10..11);
    /// # Ok::<(), navyspindle::SettingError>(())
    /// ```
    #[doc(alias = "span")]
    #[inline]
    #[must_use]
    pub fn range(&self) -> Range<usize> {
        self.range.clone()
    }

    /// Returns the byte range to show to users. It ends where [`range`](SettingError::range) ends.
    ///
    /// For a value that Rust rejects, it is the [`piece`](ParseError::piece) of the `ParseError`: it begins where the wrong part of
    /// the value begins, such as at the backslash of an escape. For an integer above 128 bits, it begins at the start of the
    /// number, and contains all digits. If the number has a suffix, it also contains the suffix's first character. For another error,
    /// it is `range`.
    ///
    /// ```
    /// use navyspindle::{Key, Settings};
    ///
    /// let text = format!("port = {}", u128::MAX.to_string() + "0");
    /// let error = Settings::read(&text)?.number::<u16>(Key::new("port", "a number")).unwrap_err();
    /// assert_eq!((error.range(), error.piece()), (47..47, 7..47));
    /// # Ok::<(), navyspindle::SettingError>(())
    /// ```
    #[inline]
    #[must_use]
    pub fn piece(&self) -> Range<usize> {
        match &self.kind {
            // If white space or a comment follows the minus, the range is that of the whole value, and so longer than the error's.
            SettingErrorKind::Literal(_, error) if error.range().len() == self.range.len() => {
                let wrong = error.offset() - error.piece().start;
                self.range.start - wrong..self.range.end
            }
            _ => self.range(),
        }
    }

    /// Returns the byte offset at which [`range`](SettingError::range) begins.
    ///
    /// ```
    /// use navyspindle::{Key, Settings};
    ///
    /// let port = Key::new("port", "a number");
    /// assert_eq!(Settings::read("port = -1")?.number::<u16>(port).unwrap_err().offset(), 7);
    /// # Ok::<(), navyspindle::SettingError>(())
    /// ```
    #[inline]
    #[must_use]
    pub fn offset(&self) -> usize {
        self.range.start
    }

    /// Returns a hint for what other formats of configuration files have, such as comments that begin with `#`, or `None`. The printed
    /// error ends with the hint.
    ///
    /// ```
    /// use navyspindle::Settings;
    ///
    /// let error = Settings::read_config("my-host = \"a\"").unwrap_err();
    /// assert_eq!(error.help(), Some("a name has no `-`: use `_`"));
    /// assert_eq!(error.to_string(), "expected `=` at byte 2: a name has no `-`: use `_`");
    /// ```
    #[inline]
    #[must_use]
    pub fn help(&self) -> Option<&'static str> {
        self.help
    }
}

impl SettingError {
    /// Returns the error with its range moved forward by `by` bytes. Use it if the settings are part of a longer text and begin at
    /// the byte offset `by`.
    ///
    /// ```
    /// use navyspindle::Settings;
    ///
    /// let error = Settings::read("prt = 1")?.check(&[]).unwrap_err();
    /// assert_eq!(error.shifted(100).range(), 100..103);
    /// # Ok::<(), navyspindle::SettingError>(())
    /// ```
    #[inline]
    #[must_use]
    pub fn shifted(self, by: usize) -> Self {
        SettingError {
            range: shifted(self.range, by),
            ..self
        }
    }
}

impl fmt::Display for SettingError {
    fn fmt(&self, f: &mut fmt::Formatter<'_>) -> fmt::Result {
        write!(f, "{} at byte {}", self.kind, self.range.start)?;
        if let Some(name) = self.similar {
            return write!(f, ": did you mean `{name}`?");
        }
        self.help.map_or(Ok(()), |help| write!(f, ": {help}"))
    }
}

/// The source is the `ParseError` of an invalid literal, or the `ValueError` of a number of another type.
impl core::error::Error for SettingError {
    #[inline]
    fn source(&self) -> Option<&(dyn core::error::Error + 'static)> {
        self.kind.source()
    }
}

/// The settings of a text, read by name.
///
/// If a setting isn't set, [`string`](Settings::string), [`number`](Settings::number) and [`bool`](Settings::bool) return `None`.
/// For a required setting the caller returns the error [`missing_error`](Settings::missing_error).
///
/// ```
/// use navyspindle::{Key, SettingError, Settings};
///
/// const HOST: Key = Key::new("host", "a string");
/// const PORT: Key = Key::new("port", "an integer from 0 to 65535");
///
/// fn server(text: &str) -> Result<(String, u16), SettingError> {
///     let read = Settings::read(text)?;
///     read.check(&[HOST, PORT])?;
///     let host = read.string(HOST)?.ok_or_else(|| read.missing_error(HOST))?;
///     Ok((host.into_owned(), read.number(PORT)?.unwrap_or(8080)))
/// }
/// assert_eq!(server(r#"host = "a\x2eb", port = 0x50"#)?, ("a.b".to_string(), 80));
/// assert_eq!(server("port = 1").unwrap_err().to_string(), "missing host: expected a string at byte 8");
/// # Ok::<(), SettingError>(())
/// ```
#[derive(Clone, Debug, PartialEq, Eq, Hash)]
pub struct Settings<'t> {
    text: &'t str,
    entries: Vec<Entry<'t>>,
}

impl<'t> Settings<'t> {
    /// Reads the settings of a text with [`parse_settings`].
    ///
    /// # Errors
    ///
    /// Returns the errors of [`parse_settings`].
    ///
    /// ```
    /// use navyspindle::{Part, SettingErrorKind, Settings, SyntaxErrorKind};
    ///
    /// assert_eq!(Settings::read("a = 1, b = 2")?.entries().len(), 2);
    /// let kind = SettingErrorKind::Syntax(SyntaxErrorKind::Expected(Part::Comma));
    /// assert_eq!(*Settings::read("a = 1 a").unwrap_err().kind(), kind);
    /// # Ok::<(), navyspindle::SettingError>(())
    /// ```
    #[inline]
    pub fn read(text: &'t str) -> Result<Self, SettingError> {
        Ok(Settings::of_entries(text, parse_settings(text)?))
    }

    #[inline]
    pub(crate) fn of_entries(text: &'t str, entries: Vec<Entry<'t>>) -> Self {
        Settings { text, entries }
    }

    /// Returns all settings, in the order of the text.
    ///
    /// ```
    /// use navyspindle::Settings;
    ///
    /// assert_eq!(Settings::read("a = 1, b = 2")?.entries()[1].name, "b");
    /// # Ok::<(), navyspindle::SettingError>(())
    /// ```
    #[inline]
    #[must_use]
    pub fn entries(&self) -> &[Entry<'t>] {
        &self.entries
    }

    /// Returns the setting with the name `name`, or `None` if it isn't set.
    ///
    /// ```
    /// use navyspindle::{Lit, Settings};
    ///
    /// let read = Settings::read("a = 1")?;
    /// assert_eq!(read.get("a").unwrap().value, Lit::of_text("1"));
    /// assert!(read.get("b").is_none());
    /// # Ok::<(), navyspindle::SettingError>(())
    /// ```
    #[inline]
    #[must_use]
    pub fn get(&self, name: &str) -> Option<&Entry<'t>> {
        self.entries.iter().find(|entry| entry.name == name)
    }

    /// Checks that every setting's name is the name of a key in `known`.
    ///
    /// # Errors
    ///
    /// Returns the error `Unknown` for the first unknown name. [`Settings::unknown`] returns an error for each unknown name.
    ///
    /// ```
    /// use navyspindle::{Key, Settings};
    ///
    /// let port = Key::new("port", "an integer");
    /// let error = Settings::read("port = 1, prt = 2")?.check(&[port]).unwrap_err();
    /// assert_eq!(error.to_string(), "unknown name `prt` at byte 10: did you mean `port`?");
    /// # Ok::<(), navyspindle::SettingError>(())
    /// ```
    #[inline]
    pub fn check(&self, known: &[Key]) -> Result<(), SettingError> {
        self.unknown(known).next().map_or(Ok(()), Err)
    }

    /// Iterates over the errors for settings whose names aren't in `known`. Each error is of kind `Unknown`, at the name. The printed
    /// error ends with the name in `known` that is most like the unknown one, if at most a third of its characters differ.
    ///
    /// ```
    /// use navyspindle::{Key, Settings};
    ///
    /// const PORT: Key = Key::new("port", "an integer");
    /// let read = Settings::read("prt = 1, port = 2, hst = 3")?;
    /// let errors: Vec<String> = read.unknown(&[PORT]).map(|error| error.to_string()).collect();
    /// assert_eq!(errors, ["unknown name `prt` at byte 0: did you mean `port`?", "unknown name `hst` at byte 19"]);
    /// # Ok::<(), navyspindle::SettingError>(())
    /// ```
    #[inline]
    pub fn unknown<'s>(
        &'s self,
        known: &'s [Key],
    ) -> impl Iterator<Item = SettingError> + Clone + 's {
        let is_unknown = move |entry: &&Entry<'_>| known.iter().all(|key| key.name != entry.name);
        let unknown = self.entries.iter().filter(is_unknown);
        unknown.map(move |entry| {
            let kind = SettingErrorKind::Unknown(entry.name.to_string());
            SettingError {
                similar: similar(entry.name, known.iter().map(|key| key.name)),
                ..SettingError::of(kind, entry.name_range.clone(), None)
            }
        })
    }

    /// Returns the value of a string literal, or `None` if the setting isn't set.
    ///
    /// # Errors
    ///
    /// Returns an error if the value isn't a string (`Kind`), if Rust rejects it (`Literal`), or if it has a suffix (`Suffix`).
    ///
    /// ```
    /// use navyspindle::{Key, Settings};
    ///
    /// let host = Key::new("host", "a string");
    /// assert_eq!(Settings::read(r#"host = "a\x2eb""#)?.string(host)?.as_deref(), Some("a.b"));
    /// assert_eq!(Settings::read("")?.string(host)?, None);
    /// let error = Settings::read("host = 1")?.string(host).unwrap_err();
    /// assert_eq!(error.to_string(), "host: expected a string at byte 7");
    /// # Ok::<(), navyspindle::SettingError>(())
    /// ```
    #[inline]
    pub fn string(&self, key: Key) -> Result<Option<Cow<'_, str>>, SettingError> {
        self.value_of(key, |entry| match &entry.value {
            Lit::Str(literal) => without_suffix(key, entry, literal.value()),
            _ => Err(no_such(key, entry)),
        })
        .map_err(|error| match self.get(key.name) {
            Some(entry) if matches!(entry.value, Lit::Char(_)) => {
                SettingError::of(error.kind, error.range, Some(STRING))
            }
            _ => error,
        })
    }

    /// Returns the value of an integer or a float literal as a number of type `N`, or `None` if the setting isn't set. The rules
    /// are those of Rust, as in [`LitInt::value`](crate::LitInt::value) and [`LitFloat::value`](crate::LitFloat::value).
    ///
    /// An integer without a suffix is also accepted for `f32` and `f64`, as in `ratio = 1`.
    ///
    /// # Errors
    ///
    /// Returns an error if the value isn't a number (`Kind`), if Rust rejects it (`Literal`), or if it isn't of type `N` (`Value`).
    ///
    /// The last of these has three reasons: the suffix is that of another type; the value is a float, and `N` is an integer type; or
    /// the number is out of the range of `N`.
    ///
    /// ```
    /// use navyspindle::{Key, Settings};
    ///
    /// let port = Key::new("port", "an integer from 0 to 65535");
    /// assert_eq!(Settings::read("port = 0x1F_90")?.number::<u16>(port)?, Some(8080));
    /// assert_eq!(Settings::read("")?.number::<u16>(port)?, None);
    /// assert_eq!(Settings::read("port = 80u16")?.number::<u16>(port)?, Some(80));
    /// assert_eq!(Settings::read("port = -1.5")?.number::<f64>(port)?, Some(-1.5));
    /// assert_eq!(Settings::read("port = 2")?.number::<f64>(port)?, Some(2.0));
    /// assert!(Settings::read("port = -1")?.number::<u16>(port).is_err());
    /// assert!(Settings::read("port = 80u8")?.number::<u16>(port).is_err());
    /// assert!(Settings::read("port = 1e400")?.number::<f64>(port).is_err());
    /// # Ok::<(), navyspindle::SettingError>(())
    /// ```
    pub fn number<N: Number>(&self, key: Key) -> Result<Option<N>, SettingError> {
        self.value_of(key, |entry| {
            let number = match &entry.value {
                Lit::Int(literal) => literal.value_or_float(),
                Lit::Float(literal) => literal.value(),
                _ => return Err(no_such(key, entry)),
            };
            number.map_err(|error| {
                let range = range_in(entry, error.range());
                (SettingErrorKind::Value(key, error), range)
            })
        })
    }

    /// Returns the value of `true` or `false`, or `None` if the setting isn't set.
    ///
    /// # Errors
    ///
    /// Returns an error if the value isn't `true` or `false` (`Kind`), or if Rust rejects it (`Literal`).
    ///
    /// ```
    /// use navyspindle::{Key, Settings};
    ///
    /// let verbose = Key::new("verbose", "true or false");
    /// assert_eq!(Settings::read("verbose = true")?.bool(verbose)?, Some(true));
    /// assert_eq!(Settings::read("")?.bool(verbose)?, None);
    /// assert!(Settings::read("verbose = 1")?.bool(verbose).is_err());
    /// # Ok::<(), navyspindle::SettingError>(())
    /// ```
    #[inline]
    pub fn bool(&self, key: Key) -> Result<Option<bool>, SettingError> {
        self.value_of(key, |entry| match &entry.value {
            Lit::Bool(literal) => Ok(literal.value()),
            _ => Err(no_such(key, entry)),
        })
    }

    /// Returns the error that a required setting isn't set. Its kind is `Missing`, and its range is empty, at the text's end.
    ///
    /// ```
    /// use navyspindle::{Key, SettingErrorKind, Settings};
    ///
    /// let host = Key::new("host", "a string");
    /// let read = Settings::read("port = 1")?;
    /// let error = read.string(host)?.ok_or_else(|| read.missing_error(host)).unwrap_err();
    /// assert_eq!((error.kind(), error.range()), (&SettingErrorKind::Missing(host), 8..8));
    /// # Ok::<(), navyspindle::SettingError>(())
    /// ```
    #[inline]
    #[must_use]
    pub fn missing_error(&self, key: Key) -> SettingError {
        let end = self.text.len();
        SettingError::of(SettingErrorKind::Missing(key), end..end, None)
    }

    /// Returns the result of `take` for the setting of `key`, or `None` if it isn't set. A value that Rust rejects is an error,
    /// without a call of `take`.
    #[inline]
    pub(crate) fn value_of<'s, V>(
        &'s self,
        key: Key,
        take: impl FnOnce(&'s Entry<'t>) -> Result<V, (SettingErrorKind, Range<usize>)>,
    ) -> Result<Option<V>, SettingError> {
        let Some(entry) = self.get(key.name) else {
            return Ok(None);
        };
        let taken = match entry.value.check() {
            Ok(()) => take(entry),
            Err(error) => {
                let range = range_in(entry, error.range());
                Err((SettingErrorKind::Literal(key, error), range))
            }
        };
        match taken {
            Ok(value) => Ok(Some(value)),
            Err((kind, range)) => Err(SettingError::of(kind, range, None)),
        }
    }
}

impl<'s, 't> IntoIterator for &'s Settings<'t> {
    type Item = &'s Entry<'t>;
    type IntoIter = slice::Iter<'s, Entry<'t>>;

    #[inline]
    fn into_iter(self) -> Self::IntoIter {
        self.entries.iter()
    }
}

impl<'t> IntoIterator for Settings<'t> {
    type Item = Entry<'t>;
    type IntoIter = vec::IntoIter<Entry<'t>>;

    #[inline]
    fn into_iter(self) -> Self::IntoIter {
        self.entries.into_iter()
    }
}

/// Returns `value`, or an error if the entry's literal has a suffix.
pub(crate) fn without_suffix<V>(
    key: Key,
    entry: &Entry<'_>,
    value: V,
) -> Result<V, (SettingErrorKind, Range<usize>)> {
    match entry.value.suffix_range() {
        Some(suffix) if !suffix.is_empty() => {
            Err((SettingErrorKind::Suffix(key), range_in(entry, suffix)))
        }
        _ => Ok(value),
    }
}

/// Creates the error that the entry's value is a literal of another kind than the expected one.
#[inline]
pub(crate) fn no_such(key: Key, entry: &Entry<'_>) -> (SettingErrorKind, Range<usize>) {
    (SettingErrorKind::Kind(key), entry.value_range.clone())
}

/// Converts a range of the entry's value to a range of the settings' text. If white space or a comment follows the value's minus,
/// the literal's text differs from the settings' text, and the result is the range of the whole value.
#[inline]
fn range_in(entry: &Entry<'_>, bytes: Range<usize>) -> Range<usize> {
    let value = entry.value_range.clone();
    if value.len() == entry.value.text().len() {
        shifted(bytes, value.start)
    } else {
        value
    }
}
