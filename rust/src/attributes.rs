//! Access by name to the entries of an attribute, in a procedural macro.

use crate::macro_error::MacroError;
use crate::meta::Meta;
use crate::proc_macros::LitOfKind;
use crate::similar::similar;
use crate::value::Number;
use alloc::string::String;
use alloc::vec::{self, Vec};
use core::fmt;
use core::slice;
use proc_macro::{Span, TokenStream};

/// The entries of an attribute, read by name.
///
/// If a name isn't set, `get`, `string`, `number`, `literal_of`, `value` and `list` return `None`. The caller then uses a default,
/// or returns [`missing_error`](Attrs::missing_error). `flag` returns `false`, and `all` an empty iterator.
///
/// Reading a name that is set twice is an error. [`Attrs::all`] returns each entry of a name that may be repeated.
///
/// ```
/// use navyspindle::{Attrs, MacroError};
///
/// /// Reads `name = "x", size = 10, verbose`. The name is required.
/// fn options(attrs: &Attrs) -> Result<(String, u8, bool), MacroError> {
///     attrs.check(&["name", "size", "verbose"])?;
///     let name = attrs.string("name")?.ok_or_else(|| attrs.missing_error("name"))?;
///     Ok((name, attrs.number("size")?.unwrap_or(1), attrs.flag("verbose")?))
/// }
///
/// assert_eq!(options(&Attrs::parse_text(r#"name = "a", verbose"#)?)?, ("a".to_string(), 1, true));
/// # Ok::<(), MacroError>(())
/// ```
#[doc(alias = "parse_nested_meta")]
#[derive(Clone, Debug)]
pub struct Attrs {
    entries: Vec<Meta>,
    /// The first and the last span of the attribute's name. `None` if errors about the attribute are reported at the macro's call.
    place: Option<(Span, Span)>,
}

impl Attrs {
    /// Parses entries separated by commas, such as the input of an attribute macro.
    ///
    /// An error about the attribute as a whole, such as a missing name, is at the macro's call. For the entries of `#[opt(..)]`
    /// call [`Meta::list`]. An error about the attribute is then at the name `opt`.
    ///
    /// # Errors
    ///
    /// Returns the error of [`Meta::parse_all`].
    ///
    /// ```no_run
    /// extern crate proc_macro;
    /// let attrs = navyspindle::Attrs::parse("a = 1, verbose".parse().unwrap())?;
    /// assert_eq!(attrs.entries().len(), 2);
    /// # Ok::<(), navyspindle::MacroError>(())
    /// ```
    #[inline]
    pub fn parse(input: TokenStream) -> Result<Attrs, MacroError> {
        Ok(Attrs::of(Meta::parse_all(input)?, None))
    }

    /// Parses the entries of a text, such as in a test of a function that reads attributes. They can be read outside of a macro too,
    /// except as tokens or with spans of the compiler. This method needs the feature `sources` or `settings`.
    ///
    /// # Errors
    ///
    /// Returns the error of [`Meta::parse_all`], or an error if the text isn't tokens.
    ///
    /// ```
    /// let attrs = navyspindle::Attrs::parse_text("name = \"a\", inner(size = 1)")?;
    /// assert_eq!(attrs.string("name")?.as_deref(), Some("a"));
    /// assert_eq!(attrs.list("inner")?.unwrap().number::<u8>("size")?, Some(1));
    /// assert_eq!(attrs.flag("inner").unwrap_err().to_string(), "unexpected list");
    /// # Ok::<(), navyspindle::MacroError>(())
    /// ```
    #[cfg(any(feature = "sources", feature = "settings"))]
    pub fn parse_text(text: &str) -> Result<Attrs, MacroError> {
        let trees = crate::trees::of_text(text)?;
        Ok(Attrs::of(crate::meta::entries_of(trees)?, None))
    }

    /// Joins the entries of the lists with the name `name` among `metas`, such as those of `#[opt(a = 1)] #[opt(b = 2)]`. Other
    /// names are ignored. Without a list, the result has no entries.
    ///
    /// An error about all entries, such as a missing name, is at the first list's name. Without a list, it is at the macro's call.
    /// If two of the lists set the same name, reading it returns the error `repeated name`.
    ///
    /// # Errors
    ///
    /// Returns an error if an entry with the name `name` isn't a list of entries. The errors of several lists are combined.
    ///
    /// ```no_run
    /// extern crate proc_macro;
    /// use navyspindle::{next_attributes, Attrs, MacroError};
    ///
    /// /// Reads the size of `#[opt(size = 1)] #[opt(verbose)] struct A;`.
    /// fn size(item: proc_macro::TokenStream) -> Result<Option<u8>, MacroError> {
    ///     let metas = next_attributes(&mut item.into_iter().peekable())?;
    ///     Attrs::join("opt", &metas)?.number("size")
    /// }
    /// ```
    pub fn join<'m>(
        name: &str,
        metas: impl IntoIterator<Item = &'m Meta>,
    ) -> Result<Attrs, MacroError> {
        let mut joined = Attrs::of(Vec::new(), None);
        let named = metas.into_iter().filter(|meta| meta.name() == name);
        let errors = named.filter_map(|meta| match meta.list() {
            Ok(attrs) => {
                joined.place = joined.place.or(attrs.place);
                joined.entries.extend(attrs.entries);
                None
            }
            Err(error) => Some(error),
        });
        MacroError::combine_all(errors)?;
        Ok(joined)
    }

    #[inline]
    pub(crate) fn of(entries: Vec<Meta>, place: Option<(Span, Span)>) -> Attrs {
        Attrs { entries, place }
    }

    /// Returns the entries in the order of the input.
    ///
    /// ```
    /// let attrs = navyspindle::Attrs::parse_text("a = 1, verbose")?;
    /// assert_eq!(attrs.entries()[1].name(), "verbose");
    /// # Ok::<(), navyspindle::MacroError>(())
    /// ```
    #[inline]
    #[must_use]
    pub fn entries(&self) -> &[Meta] {
        &self.entries
    }

    /// Iterates over the entries with this name, which may be repeated.
    ///
    /// ```no_run
    /// extern crate proc_macro;
    /// use navyspindle::{Attrs, MacroError};
    ///
    /// fn aliases(attrs: &Attrs) -> Result<Vec<String>, MacroError> {
    ///     attrs.all("alias").map(|meta| meta.string()).collect()
    /// }
    /// ```
    #[inline]
    pub fn all<'a>(&'a self, name: &'a str) -> impl Iterator<Item = &'a Meta> + Clone + 'a {
        self.entries.iter().filter(move |meta| meta.name() == name)
    }

    /// Returns the entry of `name`, or `None` if the name isn't set.
    ///
    /// # Errors
    ///
    /// Returns an error if the name is repeated. The error is at the second entry.
    ///
    /// ```
    /// let attrs = navyspindle::Attrs::parse_text("a = 1, b, b")?;
    /// assert!(attrs.get("a")?.is_some());
    /// assert!(attrs.get("c")?.is_none());
    /// assert_eq!(attrs.get("b").unwrap_err().to_string(), "repeated name `b`");
    /// # Ok::<(), navyspindle::MacroError>(())
    /// ```
    #[inline]
    pub fn get(&self, name: &str) -> Result<Option<&Meta>, MacroError> {
        let mut entries = self.entries.iter().filter(|meta| meta.name() == name);
        let first = entries.next();
        match entries.next() {
            None => Ok(first),
            Some(second) => Err(second.error(format_args!("repeated name `{name}`"))),
        }
    }

    /// Returns the result of `read` for the entry of `name`, or `None` if the name isn't set.
    fn read<V>(
        &self,
        name: &str,
        read: impl FnOnce(&Meta) -> Result<V, MacroError>,
    ) -> Result<Option<V>, MacroError> {
        let Some(meta) = self.get(name)? else {
            return Ok(None);
        };
        read(meta).map(Some)
    }

    /// Checks that the name of every entry is one of `known`.
    ///
    /// # Errors
    ///
    /// Returns an error for each unknown name, combined into one. The message of an error has the known name that is most like the
    /// unknown one.
    ///
    /// ```
    /// let attrs = navyspindle::Attrs::parse_text("size = 1, nme = \"a\"")?;
    /// let error = attrs.check(&["name", "size"]).unwrap_err();
    /// assert_eq!(error.to_string(), "unknown name `nme`: did you mean `name`?");
    /// # Ok::<(), navyspindle::MacroError>(())
    /// ```
    #[inline]
    pub fn check(&self, known: &[&str]) -> Result<(), MacroError> {
        let unknown = self
            .entries
            .iter()
            .filter(|meta| !known.contains(&meta.name()));
        MacroError::combine_all(unknown.map(|meta| {
            match similar(meta.name(), known.iter().copied()) {
                Some(name) => {
                    meta.error(format_args!("{}: did you mean `{name}`?", meta.unknown()))
                }
                None => meta.unknown(),
            }
        }))
    }

    /// Returns the string that `name` is set to, or `None` if the name isn't set.
    ///
    /// # Errors
    ///
    /// Returns an error if the name is repeated, or if its value isn't one string literal without a suffix.
    ///
    /// ```
    /// let attrs = navyspindle::Attrs::parse_text(r#"name = "a""#)?;
    /// assert_eq!(attrs.string("name")?.as_deref(), Some("a"));
    /// # Ok::<(), navyspindle::MacroError>(())
    /// ```
    #[inline]
    pub fn string(&self, name: &str) -> Result<Option<String>, MacroError> {
        self.read(name, Meta::string)
    }

    /// Returns the number that `name` is set to, or `None` if the name isn't set. An integer without a suffix is also accepted for
    /// `f32` and `f64`.
    ///
    /// # Errors
    ///
    /// Returns an error if the name is repeated, or if its value isn't one number that Rust accepts for the type.
    ///
    /// ```
    /// let attrs = navyspindle::Attrs::parse_text("size = 10")?;
    /// assert_eq!(attrs.number::<u8>("size")?.unwrap_or(1), 10);
    /// # Ok::<(), navyspindle::MacroError>(())
    /// ```
    pub fn number<N: Number>(&self, name: &str) -> Result<Option<N>, MacroError> {
        self.read(name, Meta::number)
    }

    /// Returns `true` for `name` and for `name = true`. Returns `false` for `name = false` and if the name isn't set.
    ///
    /// # Errors
    ///
    /// Returns an error if the name is repeated, or if it is a list or has a value other than `true` and `false`.
    ///
    /// ```
    /// let attrs = navyspindle::Attrs::parse_text("verbose")?;
    /// assert_eq!((attrs.flag("verbose")?, attrs.flag("quiet")?), (true, false));
    /// # Ok::<(), navyspindle::MacroError>(())
    /// ```
    #[inline]
    pub fn flag(&self, name: &str) -> Result<bool, MacroError> {
        self.get(name)?.map_or(Ok(false), Meta::flag)
    }

    /// Returns the literal of kind `L` that `name` is set to, and the literal's span. Returns `None` if the name isn't set.
    ///
    /// # Errors
    ///
    /// Returns an error if the name is repeated, or if its value isn't one literal of kind `L`.
    ///
    /// ```no_run
    /// extern crate proc_macro;
    /// use navyspindle::{Attrs, LitChar};
    ///
    /// let attrs = Attrs::parse("short = 'a'".parse().unwrap())?;
    /// let (short, span) = attrs.literal_of::<LitChar>("short")?.unwrap();
    /// assert_eq!(short.value(), 'a');
    /// # Ok::<(), navyspindle::MacroError>(())
    /// ```
    pub fn literal_of<L: LitOfKind>(&self, name: &str) -> Result<Option<(L, Span)>, MacroError> {
        self.read(name, Meta::literal_of)
    }

    /// Returns the tokens of the value that `name` is set to, or `None` if the name isn't set.
    ///
    /// # Errors
    ///
    /// Returns an error if the name is repeated, or if it has no value.
    ///
    /// ```no_run
    /// extern crate proc_macro;
    /// let attrs = navyspindle::Attrs::parse("max = u8::MAX".parse().unwrap())?;
    /// assert_eq!(attrs.value("max")?.unwrap().into_iter().count(), 4);
    /// # Ok::<(), navyspindle::MacroError>(())
    /// ```
    #[inline]
    pub fn value(&self, name: &str) -> Result<Option<TokenStream>, MacroError> {
        self.read(name, Meta::value)
    }

    /// Returns the entries of the list `name`, or `None` if the name isn't set.
    ///
    /// # Errors
    ///
    /// Returns an error if the name is repeated, or if it isn't a list of entries.
    ///
    /// ```
    /// let attrs = navyspindle::Attrs::parse_text("inner(a = 1)")?;
    /// let inner = attrs.list("inner")?.unwrap();
    /// assert_eq!(inner.number::<u8>("a")?, Some(1));
    /// # Ok::<(), navyspindle::MacroError>(())
    /// ```
    #[inline]
    pub fn list(&self, name: &str) -> Result<Option<Attrs>, MacroError> {
        self.read(name, Meta::list)
    }

    /// Creates the error for a required name that isn't set. For entries of [`Meta::list`] or [`Attrs::list`], the error is at the
    /// list's name. For entries of [`Attrs::parse`], the error is at the macro's call.
    ///
    /// ```
    /// let attrs = navyspindle::Attrs::parse_text("size = 1")?;
    /// assert_eq!(attrs.missing_error("name").to_string(), "missing `name`");
    /// # Ok::<(), navyspindle::MacroError>(())
    /// ```
    #[inline]
    #[must_use]
    pub fn missing_error(&self, name: &str) -> MacroError {
        self.error(format_args!("missing `{name}`"))
    }

    /// Creates an error about all entries. For entries of [`Meta::list`] or [`Attrs::list`], the error is at the list's name. For
    /// entries of [`Attrs::parse`], the error is at the macro's call.
    ///
    /// ```
    /// let attrs = navyspindle::Attrs::parse_text("min = 2, max = 1")?;
    /// assert_eq!(attrs.error("empty range").to_string(), "empty range");
    /// # Ok::<(), navyspindle::MacroError>(())
    /// ```
    #[must_use]
    pub fn error(&self, message: impl fmt::Display) -> MacroError {
        let (first, last) = self.place.unzip();
        MacroError::near(message, first, last)
    }
}

impl<'a> IntoIterator for &'a Attrs {
    type Item = &'a Meta;
    type IntoIter = slice::Iter<'a, Meta>;

    #[inline]
    fn into_iter(self) -> Self::IntoIter {
        self.entries.iter()
    }
}

impl IntoIterator for Attrs {
    type Item = Meta;
    type IntoIter = vec::IntoIter<Meta>;

    #[inline]
    fn into_iter(self) -> Self::IntoIter {
        self.entries.into_iter()
    }
}
