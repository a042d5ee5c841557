//! Rewriting of the literals of whole sources in a style.

use crate::list_error::ListError;
use crate::rewrite::rewrite_in_context;
use crate::rl_style::{
    all_rules, growth, is_changed_by_style, is_safe_to_restyle, Restylable, Restylables,
};
use crate::style::Style;
use alloc::borrow::Cow;
use alloc::string::String;
use alloc::vec;
use alloc::vec::Vec;
use core::fmt;
use core::iter::FusedIterator;
use core::ops::Range;

/// A literal of a source that a style changes, with its new text. See [`rewrite_source`].
///
/// ```
/// use navyspindle::{rewrite_source, Case, Edit, Style};
///
/// let edit: Edit = rewrite_source("f(0xA)", Style::new().hex_digits(Case::Lower)).next().unwrap()?;
/// assert_eq!((edit.range(), edit.text(), edit.rules()), (2..5, "0xa", &["hex_digits"][..]));
/// # Ok::<(), navyspindle::ListError>(())
/// ```
#[derive(Clone, Debug, PartialEq, Eq, Hash)]
pub struct Edit {
    range: Range<usize>,
    text: String,
    rules: Vec<&'static str>,
}

impl Edit {
    /// Returns the byte range of the changed literal in the source.
    ///
    /// ```
    /// use navyspindle::{rewrite_source, Case, Style};
    ///
    /// let edit = rewrite_source("f(0xA)", Style::new().hex_digits(Case::Lower)).next().unwrap()?;
    /// assert_eq!(edit.range(), 2..5);
    /// # Ok::<(), navyspindle::ListError>(())
    /// ```
    #[inline]
    pub fn range(&self) -> Range<usize> {
        self.range.clone()
    }

    /// Returns the literal's new text.
    ///
    /// ```
    /// use navyspindle::{rewrite_source, Case, Style};
    ///
    /// let edit = rewrite_source("f(0xA)", Style::new().hex_digits(Case::Lower)).next().unwrap()?;
    /// assert_eq!(edit.text(), "0xa");
    /// # Ok::<(), navyspindle::ListError>(())
    /// ```
    #[inline]
    pub fn text(&self) -> &str {
        &self.text
    }

    /// Returns the names of the rules each of which alone would change the literal, in the order of the setters of [`Style`].
    ///
    /// ```
    /// use navyspindle::{rewrite_source, Case, Style};
    ///
    /// let style = Style::new().hex_digits(Case::Lower).drop_underscores(true).float_zero(true);
    /// let edits: Vec<_> = rewrite_source("[0xA_B, 1.]", style).collect::<Result<_, _>>()?;
    /// assert_eq!(edits[0].rules(), ["hex_digits", "drop_underscores"]);
    /// assert_eq!(edits[1].rules(), ["float_zero"]);
    /// # Ok::<(), navyspindle::ListError>(())
    /// ```
    #[inline]
    pub fn rules(&self) -> &[&'static str] {
        &self.rules
    }
}

/// An iterator over the literals of a source that a style changes. See [`rewrite_source`].
///
/// ```
/// use navyspindle::{rewrite_source, Case, Edits, Style};
///
/// let edits: Edits = rewrite_source("f(0xA, 0xB)", Style::new().hex_digits(Case::Lower));
/// assert_eq!(edits.clone().count(), 2);
/// assert_eq!(edits.apply()?, "f(0xa, 0xb)");
/// # Ok::<(), navyspindle::ListError>(())
/// ```
#[must_use = "an iterator does nothing until it is asked"]
pub struct Edits<'t> {
    text: &'t str,
    style: Style,
    literals: Restylables<'t>,
    // The number of literals that the iterator has examined.
    passed: usize,
    skips_macros: bool,
    is_done: bool,
}

/// Rewrites the literals of a Rust source file in a style: [`Edits::apply`] returns the new text, and the iterator returns the edits.
///
/// Each literal keeps its kind, value and suffix, as with [`rewrite`](crate::rewrite). These literals are left unchanged:
///
/// - those that Rust rejects (`0b2`), and strings that contain a CR;
/// - numbers that may be fields: after one dot (`t.0`), and before a single `:` after `{`, `,`, `]` or a doc comment (`S { 0: x }`);
/// - all of a file that begins with `#!` but not with `#![`;
/// - with [`Edits::skip_macros`], those in macro calls, `macro_rules!` and attributes. A macro can see how a literal is written: by
///   `stringify!`, by an arm that names a literal, and by `concat!` of floats.
///
/// It is proved that the new text has the same tokens apart from its literals, if each character of the file belongs to a token and
/// each `'..'` has one character, as in every file that rustc accepts.
///
/// ```
/// use navyspindle::{rewrite_source, Case, Style};
///
/// let text = r####"let a = (0xFF, r##"b"##, t.0, 1..0xABu8);"####;
/// let style = Style::new().hex_digits(Case::Lower).fewest_hashes(true);
/// assert_eq!(rewrite_source(text, style).apply()?, r#"let a = (0xff, r"b", t.0, 1..0xabu8);"#);
///
/// let edits: Vec<_> = rewrite_source(text, style).collect::<Result<_, _>>()?;
/// assert_eq!((edits[0].range(), edits[0].text()), (9..13, "0xff"));
/// assert_eq!(edits.len(), 3);
///
/// // Fields keep their names.
/// let style = Style::new().digit_groups(navyspindle::DigitGroups::new().decimal(1));
/// assert_eq!(rewrite_source("S { 10: 10, 11: t.10 }", style).apply()?, "S { 10: 1_0, 11: t.10 }");
/// # Ok::<(), navyspindle::ListError>(())
/// ```
#[inline]
pub fn rewrite_source(text: &str, style: Style) -> Edits<'_> {
    Edits {
        text,
        style,
        literals: Restylables::new(text),
        passed: 0,
        skips_macros: false,
        is_done: !is_safe_to_restyle(text),
    }
}

impl<'t> Edits<'t> {
    /// Sets whether literals in macro calls, `macro_rules!` and attributes are left unchanged. The default is `false`.
    ///
    /// Macros and attributes are recognized by tokens: their literals are inside the brackets after a name and `!`, after
    /// `macro_rules! name`, and after `#` and `#!`.
    ///
    /// ```
    /// use navyspindle::{rewrite_source, Case, Style};
    ///
    /// let edits = rewrite_source("f(0xA, vec![0xB], !(0xC))", Style::new().hex_digits(Case::Lower));
    /// assert_eq!(edits.skip_macros(true).apply()?, "f(0xa, vec![0xB], !(0xc))");
    /// # Ok::<(), navyspindle::ListError>(())
    /// ```
    #[inline]
    pub fn skip_macros(mut self, skips: bool) -> Self {
        self.skips_macros = skips;
        self
    }

    /// Returns the source with the remaining edits applied. The result is borrowed if there are none.
    ///
    /// # Errors
    ///
    /// Returns the first error of the source: a quote or a comment that isn't closed.
    ///
    /// ```
    /// use navyspindle::{rewrite_source, Case, Style};
    ///
    /// let style = Style::new().hex_digits(Case::Lower);
    /// assert_eq!(rewrite_source("f(0xA, 0xb)", style).apply()?, "f(0xa, 0xb)");
    /// assert!(rewrite_source("f(0xA, \"b)", style).apply().is_err());
    /// # Ok::<(), navyspindle::ListError>(())
    /// ```
    #[inline]
    pub fn apply(self) -> Result<Cow<'t, str>, ListError> {
        let whole = self.text;
        let (mut text, mut at) = (String::new(), 0);
        for edit in self {
            let edit = edit?;
            text.push_str(&whole[at..edit.range.start]);
            text.push_str(&edit.text);
            at = edit.range.end;
        }
        if at == 0 {
            return Ok(Cow::Borrowed(whole));
        }
        text.push_str(&whole[at..]);
        Ok(Cow::Owned(text))
    }
}

/// Returns the names of the rules each of which alone changes the literal `text`. `before` is the source's text before the literal.
#[inline]
fn rules_after(before: &str, text: &str, style: Style) -> Vec<&'static str> {
    let style = style.proved();
    let mut room = vec![0; text.len() * growth(style, text) + 1];
    let mut is_of = |rule| {
        matches!(
            is_changed_by_style(before, text, style.only(rule), &mut room),
            Ok(true)
        )
    };
    let rules = all_rules().iter().copied();
    rules
        .filter(|rule| is_of(*rule))
        .map(|rule| rule.name())
        .collect()
}

/// Returns the edit that rewrites a literal in the style, or `None` if the literal has the style already.
#[inline]
fn edit_of(style: Style, source: &str, literal: Restylable<'_>) -> Option<Edit> {
    let (before, old) = (&source[..literal.token.lo], literal.token.text);
    match rewrite_in_context(before, old, style) {
        Ok(Cow::Owned(text)) => Some(Edit {
            range: literal.token.lo..literal.token.hi,
            text,
            rules: rules_after(before, old, style),
        }),
        _ => None,
    }
}

impl Iterator for Edits<'_> {
    type Item = Result<Edit, ListError>;

    #[inline]
    fn next(&mut self) -> Option<Self::Item> {
        while !self.is_done {
            let Some(literal) = self.literals.next() else {
                self.is_done = true;
                let error = self.literals.error()?;
                return Some(Err(ListError::of_source(self.text, error)));
            };
            self.passed += 1;
            if literal.is_field || self.skips_macros && literal.in_macro {
                continue;
            }
            if let Some(edit) = edit_of(self.style, self.text, literal) {
                return Some(Ok(edit));
            }
        }
        None
    }
}

impl FusedIterator for Edits<'_> {}

/// The clone begins at the next edit. Cloning walks over the source before that edit.
impl Clone for Edits<'_> {
    #[inline]
    fn clone(&self) -> Self {
        let mut literals = Restylables::new(self.text);
        for _ in 0..self.passed {
            literals.next();
        }
        Edits { literals, ..*self }
    }
}

impl fmt::Debug for Edits<'_> {
    fn fmt(&self, f: &mut fmt::Formatter<'_>) -> fmt::Result {
        f.debug_struct("Edits")
            .field("style", &self.style)
            .field("skips_macros", &self.skips_macros)
            .finish_non_exhaustive()
    }
}
