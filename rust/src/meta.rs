//! An entry of an attribute: a flag, a value or a list.

use crate::attributes::Attrs;
use crate::located::Located;
use crate::macro_error::{MacroError, Mismatch};
use crate::proc_macros::{at, next_placed, LitOfKind, Placed};
use crate::trees::{self, Tree};
use crate::value::Number;
use crate::value_end::{Shape, ValueEnd};
use crate::{Kind, Lit, LitBool, LitFloat, LitStr};
use alloc::string::String;
use alloc::vec;
use alloc::vec::Vec;
use core::fmt;
use core::iter::Peekable;
use proc_macro::{Delimiter, Spacing, Span, TokenStream, TokenTree};

/// An entry of an attribute: a flag (`verbose`), a value (`name = "x"`, `max = u8::MAX`) or a list (`inner(a = 1)`).
///
/// The name is an identifier, or a path such as `a::b`. Keywords except `_` are names too, and `r#type` has the name `type`. A list
/// may have `(..)`, `[..]` or `{..}`.
///
/// A value is an expression, or a type such as `HashMap<K, V>`. It ends at the next comma outside of brackets and of the parameters
/// of a closure. `<` opens brackets where Rust reads it so: where an operand or a type is expected, after `::`, and in the return type
/// of a closure. After a name, `<` opens brackets if a comma, `+`, `::` or the end follows the `>` that closes them, since an operand
/// follows an operator `>`. So the value of `a = x < y, b = z > w` is `x < y`. `a = x < y, b = z > ::w` is an error, because it may be
/// one type or two comparisons. Write `x::<y, b = z>::w`, or `(x < y)`.
///
/// The methods `string`, `number`, `flag` and `literal_of` read a value that is one literal. A number may follow a minus.
/// `macro_rules!` may pass the literal on as `$e:literal`.
///
/// ```no_run
/// extern crate proc_macro;
/// use navyspindle::{MacroError, Meta};
/// use proc_macro::TokenStream;
///
/// /// Reads `skip`, `rename = "x"` and `with = path::to::function`, in any order.
/// fn options(input: TokenStream) -> Result<(bool, Option<String>, Option<TokenStream>), MacroError> {
///     let (mut skip, mut rename, mut with) = (false, None, None);
///     for meta in Meta::parse_all(input)? {
///         match meta.name() {
///             "skip" => skip = meta.flag()?,
///             "rename" => rename = Some(meta.string()?),
///             "with" => with = Some(meta.value()?),
///             _ => return Err(meta.unknown()),
///         }
///     }
///     Ok((skip, rename, with))
/// }
/// ```
#[doc(alias = "MetaNameValue")]
#[doc(alias = "MetaList")]
#[doc(alias = "NestedMeta")]
#[derive(Clone)]
pub struct Meta {
    name: String,
    first: Option<Span>,
    last: Option<Span>,
    form: Form,
}

/// The tokens after an entry's name: none, a value or a list.
#[derive(Clone)]
enum Form {
    Flag,
    Value(Vec<Tree>),
    List(Tree),
}

/// The form of an entry of an attribute.
///
/// ```
/// use navyspindle::{Attrs, MetaForm};
///
/// let attrs = Attrs::parse_text(r#"a, b = "x", c("x")"#)?;
/// let forms: Vec<_> = attrs.entries().iter().map(|meta| meta.form()).collect();
/// assert_eq!(forms, [MetaForm::Flag, MetaForm::Value, MetaForm::List]);
/// # Ok::<(), navyspindle::MacroError>(())
/// ```
#[derive(Clone, Copy, Debug, PartialEq, Eq, Hash)]
pub enum MetaForm {
    /// Only a name, such as `verbose`.
    Flag,
    /// A name, `=` and a value.
    Value,
    /// A name and a list in brackets.
    List,
}

impl Meta {
    /// Parses the whole input as one entry, such as the tokens inside `#[..]`.
    ///
    /// # Errors
    ///
    /// Returns an error if the input isn't an entry, or if tokens follow it.
    ///
    /// ```no_run
    /// extern crate proc_macro;
    /// use navyspindle::{Attrs, MacroError, Meta};
    /// use proc_macro::Group;
    ///
    /// /// Returns the entries of `#[opt(..)]`, or `None` for another attribute. `brackets` is the group after the `#`.
    /// fn opt(brackets: &Group) -> Result<Option<Attrs>, MacroError> {
    ///     let meta = Meta::parse(brackets.stream())?;
    ///     (meta.name() == "opt").then(|| meta.list()).transpose()
    /// }
    /// ```
    #[inline]
    pub fn parse(input: TokenStream) -> Result<Meta, MacroError> {
        let mut trees = Trees::of(trees::of_tokens(input));
        let meta = next_meta(&mut trees)?;
        match trees.next() {
            None => Ok(meta),
            Some(tree) => Err(tree.error("unexpected token")),
        }
    }

    /// Parses entries separated by commas. A trailing comma is allowed.
    ///
    /// # Errors
    ///
    /// Returns an error if a name, a value or a comma is missing. The error is at the unexpected token, or at the last token of the
    /// input.
    ///
    /// ```no_run
    /// extern crate proc_macro;
    /// let metas = navyspindle::Meta::parse_all("a, b = 1, c(d = 2),".parse().unwrap())?;
    /// let names: Vec<_> = metas.iter().map(|meta| meta.name()).collect();
    /// assert_eq!(names, ["a", "b", "c"]);
    /// # Ok::<(), navyspindle::MacroError>(())
    /// ```
    #[inline]
    pub fn parse_all(input: TokenStream) -> Result<Vec<Meta>, MacroError> {
        entries_of(trees::of_tokens(input))
    }

    /// Returns the entry's name, without `r#`. The parts of a path have `::` between them.
    ///
    /// ```
    /// assert_eq!(navyspindle::Attrs::parse_text("r#type = 1")?.entries()[0].name(), "type");
    /// # Ok::<(), navyspindle::MacroError>(())
    /// ```
    #[inline]
    #[must_use]
    pub fn name(&self) -> &str {
        &self.name
    }

    /// Returns the form of the entry. [`Meta::value`] and [`Meta::tokens`] return an error for an entry of another form.
    ///
    /// ```
    /// use navyspindle::{Attrs, MetaForm};
    ///
    /// assert_eq!(Attrs::parse_text("long")?.entries()[0].form(), MetaForm::Flag);
    /// # Ok::<(), navyspindle::MacroError>(())
    /// ```
    #[inline]
    #[must_use]
    pub fn form(&self) -> MetaForm {
        match self.form {
            Form::Flag => MetaForm::Flag,
            Form::Value(_) => MetaForm::Value,
            Form::List(_) => MetaForm::List,
        }
    }

    /// Returns the span of the first token of the entry's name.
    ///
    /// ```no_run
    /// extern crate proc_macro;
    /// use navyspindle::{MacroError, Meta};
    ///
    /// fn deprecated(meta: &Meta) -> MacroError {
    ///     MacroError::new("use `rename`", meta.span())
    /// }
    /// ```
    #[inline]
    #[must_use]
    pub fn span(&self) -> Span {
        at(self.first)
    }

    /// Creates an error at the entry's name.
    ///
    /// ```
    /// let meta = navyspindle::Attrs::parse_text("a = 1")?.entries()[0].clone();
    /// assert_eq!(meta.error("use `b`").to_string(), "use `b`");
    /// # Ok::<(), navyspindle::MacroError>(())
    /// ```
    #[must_use]
    pub fn error(&self, message: impl fmt::Display) -> MacroError {
        MacroError::near(message, self.first, self.last)
    }

    /// Creates an error at the value, from its first token to its last. For a list, the error is at the whole list. For a flag, the
    /// error is at the name.
    ///
    /// ```
    /// let attrs = navyspindle::Attrs::parse_text("size = 0")?;
    /// let error = attrs.entries()[0].value_error("expected a positive number");
    /// assert_eq!(error.to_string(), "expected a positive number");
    /// # Ok::<(), navyspindle::MacroError>(())
    /// ```
    #[must_use]
    pub fn value_error(&self, message: impl fmt::Display) -> MacroError {
        match &self.form {
            Form::Value(trees) => {
                let (first, last) = (&trees[0], &trees[trees.len() - 1]);
                MacroError::near(message, first.span(), last.span())
            }
            Form::List(group) => group.error(message),
            Form::Flag => self.error(message),
        }
    }

    /// Creates the error that the entry's name is unknown. The error is at the name.
    ///
    /// ```
    /// let meta = navyspindle::Attrs::parse_text("nme = 1")?.entries()[0].clone();
    /// assert_eq!(meta.unknown().to_string(), "unknown name `nme`");
    /// # Ok::<(), navyspindle::MacroError>(())
    /// ```
    #[inline]
    #[must_use]
    pub fn unknown(&self) -> MacroError {
        self.error(format_args!("unknown name `{}`", self.name))
    }

    /// Returns the entry's value if it is a single literal, and the span of the literal's token, without its minus. Returns `None`
    /// for a flag, for a list, and for any other value.
    ///
    /// ```no_run
    /// extern crate proc_macro;
    /// use navyspindle::Meta;
    ///
    /// let literal = |text: &str| Meta::parse(text.parse().unwrap()).unwrap().literal();
    /// assert_eq!(literal("a = -1").unwrap().0.text(), "-1");
    /// assert!(literal("a = u8::MAX").is_none());
    /// ```
    #[inline]
    #[must_use]
    pub fn literal(&self) -> Option<(Lit<'static>, Span)> {
        let placed = self.placed("literal").ok()?;
        Some((placed.literal, at(placed.span)))
    }

    /// Returns the entry's value as a literal of kind `L`, and the span of the literal's token, without its minus.
    /// [`Meta::value_error`] creates an error at the whole value.
    ///
    /// # Errors
    ///
    /// Returns an error if there is no value, if it isn't one literal, or if the literal isn't of kind `L`.
    ///
    /// ```no_run
    /// extern crate proc_macro;
    /// use navyspindle::{LitChar, Meta};
    ///
    /// let meta = Meta::parse("short = 'a'".parse().unwrap())?;
    /// assert_eq!(meta.literal_of::<LitChar>()?.0.value(), 'a');
    /// # Ok::<(), navyspindle::MacroError>(())
    /// ```
    pub fn literal_of<L: LitOfKind>(&self) -> Result<(L, Span), MacroError> {
        self.located().map(Located::into_parts)
    }

    /// Returns the entry's value as a literal of kind `L`, with its spans.
    ///
    /// # Errors
    ///
    /// Returns the errors of [`Meta::literal_of`].
    ///
    /// ```
    /// use navyspindle::{Attrs, LitStr};
    ///
    /// let path = Attrs::parse_text(r#"path = "a:b""#)?.entries()[0].located::<LitStr>()?;
    /// assert_eq!(path.error_inside(1..2, "unexpected `:`").to_string(), "unexpected `:`\n\"a:b\"\n  ^");
    /// # Ok::<(), navyspindle::MacroError>(())
    /// ```
    #[inline]
    pub fn located<L: LitOfKind>(&self) -> Result<Located<L>, MacroError> {
        Located::of(self.placed(L::KIND)?)
    }

    /// Returns the literals of kind `L` of a list such as `alias("a", "b")`, or of an array such as `alias = ["a", "b"]`. Commas are
    /// between them.
    ///
    /// # Errors
    ///
    /// Returns an error if the entry is a flag, or has another value or list.
    ///
    /// ```
    /// use navyspindle::{LitStr};
    ///
    /// let meta = navyspindle::Attrs::parse_text(r#"alias("a", "b")"#)?.entries()[0].clone();
    /// let aliases = meta.literals::<LitStr>()?;
    /// assert_eq!(aliases[1].value(), "b");
    /// # Ok::<(), navyspindle::MacroError>(())
    /// ```
    pub fn literals<L: LitOfKind>(&self) -> Result<Vec<Located<L>>, MacroError> {
        let group = match &self.form {
            Form::List(group) => group,
            Form::Value(trees) => match &trees[..] {
                [group] if group.delimiter() == Some(Delimiter::Bracket) => group,
                _ => return Err(self.value_error("expected an array: `[..]`")),
            },
            Form::Flag => return Err(self.list_error()),
        };
        let (mut trees, mut literals) = (group.inside().into_iter(), Vec::new());
        while !trees.as_slice().is_empty() {
            literals.push(Located::of(next_placed(&mut trees, L::KIND)?)?);
            match trees.next() {
                Some(tree) if !tree.is_mark(',') => return Err(tree.error("expected `,`")),
                _ => {}
            }
        }
        Ok(literals)
    }

    /// Creates the error that a flag should be a list.
    fn list_error(&self) -> MacroError {
        self.error(format_args!("expected a list: `{}(..)`", self.name))
    }

    /// Returns the value of the entry's string literal. The literal must have no suffix.
    ///
    /// # Errors
    ///
    /// Returns an error if there is no value, or if it isn't one string literal without a suffix.
    ///
    /// ```
    /// let meta = navyspindle::Attrs::parse_text(r#"rename = "a\x41""#)?.entries()[0].clone();
    /// assert_eq!(meta.string()?, "aA");
    /// # Ok::<(), navyspindle::MacroError>(())
    /// ```
    #[inline]
    pub fn string(&self) -> Result<String, MacroError> {
        let literal = self.located::<LitStr>()?;
        match literal.suffix() {
            "" => Ok(literal.into_literal().into_value().into_owned()),
            suffix => Err(literal.error(format_args!("unexpected suffix `{suffix}`"))),
        }
    }

    /// Returns the entry's value as a number of type `N`, if Rust accepts the literal for `N`
    /// ([`LitInt::value`](crate::LitInt::value), [`LitFloat::value`]).
    ///
    /// An integer without a suffix is also accepted for `f32` and `f64`, as in `ratio = 1`.
    ///
    /// # Errors
    ///
    /// Returns an error if there is no value, if it isn't one number, or if the number isn't of the type.
    ///
    /// ```
    /// let meta = navyspindle::Attrs::parse_text("size = 0x1F")?.entries()[0].clone();
    /// assert_eq!(meta.number::<u8>()?, 31);
    /// assert_eq!(meta.number::<f64>()?, 31.0);
    /// # Ok::<(), navyspindle::MacroError>(())
    /// ```
    pub fn number<N: Number>(&self) -> Result<N, MacroError> {
        let expected = match N::TYPE.is_float() {
            true => Kind::Float,
            false => Kind::Int,
        };
        let placed = self.placed(expected)?;
        let number = match &placed.literal {
            Lit::Int(literal) => literal.value_or_float(),
            Lit::Float(literal) => literal.value(),
            // An integer above 128 bits that is a float by its suffix.
            Lit::Verbatim(large) => LitFloat::of_text(large.text())?.value(),
            other => return Err(placed.error(Mismatch(expected, other.kind()))),
        };
        number.map_err(|error| placed.error(error.message()))
    }

    /// Returns `true` for a flag and for the value `true`, and `false` for the value `false`.
    ///
    /// # Errors
    ///
    /// Returns an error if the entry is a list, or has a value other than `true` and `false`.
    ///
    /// ```
    /// let flag = |text: &str| navyspindle::Attrs::parse_text(text)?.entries()[0].flag();
    /// assert_eq!((flag("verbose")?, flag("verbose = false")?), (true, false));
    /// # Ok::<(), navyspindle::MacroError>(())
    /// ```
    #[inline]
    pub fn flag(&self) -> Result<bool, MacroError> {
        match &self.form {
            Form::Flag => Ok(true),
            Form::Value(_) => match self.located::<LitBool>() {
                Ok(literal) => Ok(literal.value()),
                _ => {
                    let message = format_args!("unexpected value: write `{}` alone", self.name);
                    Err(self.value_error(message))
                }
            },
            Form::List(group) => Err(at_opening(group, "unexpected list")),
        }
    }

    /// Returns the tokens of the entry's value. They aren't checked: rustc reports an invalid expression where the macro's output
    /// uses it.
    ///
    /// # Errors
    ///
    /// Returns an error if the entry is a flag or a list.
    ///
    /// ```no_run
    /// extern crate proc_macro;
    /// let meta = navyspindle::Meta::parse("max = u8::MAX".parse().unwrap())?;
    /// assert_eq!(meta.value()?.into_iter().count(), 4);
    /// # Ok::<(), navyspindle::MacroError>(())
    /// ```
    #[inline]
    pub fn value(&self) -> Result<TokenStream, MacroError> {
        trees::tokens_of(self.value_trees()?)
    }

    /// Returns the tokens inside the entry's list.
    ///
    /// # Errors
    ///
    /// Returns an error if the entry is a flag or has a value.
    ///
    /// ```no_run
    /// extern crate proc_macro;
    /// let meta = navyspindle::Meta::parse("ops(a + b)".parse().unwrap())?;
    /// assert_eq!(meta.tokens()?.into_iter().count(), 3);
    /// # Ok::<(), navyspindle::MacroError>(())
    /// ```
    #[inline]
    pub fn tokens(&self) -> Result<TokenStream, MacroError> {
        trees::tokens_of(&self.list_trees()?)
    }

    /// Parses the tokens inside the entry's list as entries.
    ///
    /// # Errors
    ///
    /// Returns an error if the entry is a flag or has a value. Otherwise returns the error of [`Meta::parse_all`].
    ///
    /// ```
    /// let meta = navyspindle::Attrs::parse_text("inner(a = 1)")?.entries()[0].clone();
    /// assert_eq!(meta.list()?.number::<u8>("a")?, Some(1));
    /// # Ok::<(), navyspindle::MacroError>(())
    /// ```
    #[inline]
    pub fn list(&self) -> Result<Attrs, MacroError> {
        let entries = entries_of(self.list_trees()?)?;
        Ok(Attrs::of(entries, self.first.zip(self.last)))
    }

    fn list_trees(&self) -> Result<Vec<Tree>, MacroError> {
        match &self.form {
            Form::List(group) => Ok(group.inside()),
            Form::Flag => Err(self.list_error()),
            Form::Value(trees) => Err(trees[0].error("expected a list")),
        }
    }

    #[inline]
    fn value_trees(&self) -> Result<&[Tree], MacroError> {
        match &self.form {
            Form::Value(trees) => Ok(trees),
            Form::Flag => Err(self.error(format_args!("expected a value: `{} = ..`", self.name))),
            Form::List(group) => Err(at_opening(group, "expected a value")),
        }
    }

    /// Returns the entry's value if it is one literal, with its spans. `expected` is the kind that errors name.
    #[inline]
    fn placed(&self, expected: impl fmt::Display) -> Result<Placed, MacroError> {
        let mut trees = self.value_trees()?.iter().cloned();
        let placed = next_placed(&mut trees, expected)?;
        match trees.next() {
            None => Ok(placed),
            Some(tree) => Err(tree.error("expected `,`")),
        }
    }
}

/// Prints the entry's name and form, without the tokens of its value or list.
impl fmt::Debug for Meta {
    fn fmt(&self, f: &mut fmt::Formatter<'_>) -> fmt::Result {
        f.write_str(&self.name)?;
        f.write_str(match &self.form {
            Form::Flag => "",
            Form::Value(_) => " = ..",
            Form::List(_) => "(..)",
        })
    }
}

/// Creates an error at a group's opening delimiter.
fn at_opening(group: &Tree, message: &str) -> MacroError {
    MacroError::near(message, group.span_open(), group.span_open())
}

/// A cursor over token trees, with a view of the next tree and the span of the previous one. `open` is a stack: below the innermost
/// opened group without brackets are the trees that follow the group.
struct Trees {
    open: Vec<Level>,
    before: Option<Span>,
}

/// The trees of the input, or of a group without brackets.
struct Level {
    trees: vec::IntoIter<Tree>,
    /// For each of the trees `Open` or `Ambiguous`, if it is a `<` of this class.
    opens: vec::IntoIter<Option<Shape>>,
}

impl Level {
    #[inline]
    fn of(trees: Vec<Tree>) -> Level {
        Level {
            opens: opening(&trees).into_iter(),
            trees: trees.into_iter(),
        }
    }
}

/// Returns `Open` for each `<` of the trees that opens angle brackets: no operand follows the matching `>`, so the `>` is no operator.
fn opening(trees: &[Tree]) -> Vec<Option<Shape>> {
    let mark_at = |at: usize| trees.get(at).map(|tree| tree.mark().map(|it| it.0));
    let mut opens = vec![None; trees.len()];
    let (mut open, mut equals, mut before) = (Vec::new(), 0, None);
    for (at, tree) in trees.iter().enumerate() {
        let mark = tree.mark().map(|it| it.0);
        match mark {
            Some('=') => equals += 1,
            Some('<') => open.push((at, equals)),
            Some('>') if before != Some('-') => {
                if let Some((from, equals_before)) = open.pop() {
                    opens[from] = match mark_at(at + 1) {
                        None | Some(Some(',' | '+')) => Some(Shape::Open),
                        Some(Some(':')) if equals == equals_before => Some(Shape::Open),
                        // The `::` may begin an operand, and the `=` inside may be that of the next entry.
                        Some(Some(':')) => Some(Shape::Ambiguous),
                        Some(_) => None,
                    };
                }
            }
            _ => {}
        }
        before = mark;
    }
    opens
}

impl Trees {
    #[inline]
    fn of(trees: Vec<Tree>) -> Trees {
        Trees {
            open: vec![Level::of(trees)],
            before: None,
        }
    }

    /// Returns the innermost opened group that has trees left, after dropping the groups at their end.
    #[inline]
    fn innermost(&mut self) -> Option<&mut Level> {
        while self.open.last()?.trees.as_slice().is_empty() {
            self.open.pop();
        }
        self.open.last_mut()
    }

    #[inline]
    fn peek(&mut self) -> Option<&Tree> {
        self.innermost()?.trees.as_slice().first()
    }

    /// Returns the class of the next tree.
    #[inline]
    fn shape(&mut self) -> Option<Shape> {
        let level = self.innermost()?;
        match level.opens.as_slice() {
            [Some(shape), ..] => Some(*shape),
            _ => level.trees.as_slice().first().map(Tree::shape),
        }
    }

    #[inline]
    fn next(&mut self) -> Option<Tree> {
        let level = self.innermost()?;
        level.opens.next();
        let tree = level.trees.next()?;
        self.before = tree.span();
        Some(tree)
    }

    /// Consumes and returns the next tree, if it is the punctuation character.
    #[inline]
    fn next_mark(&mut self, mark: char) -> Option<Tree> {
        match self.peek()?.is_mark(mark) {
            true => self.next(),
            false => None,
        }
    }

    /// Enters the groups without brackets that are next. `macro_rules!` passes a path on in such a group.
    #[inline]
    fn open_groups(&mut self) {
        while self.peek().and_then(Tree::delimiter) == Some(Delimiter::None) {
            let inside = self.next().map_or(Vec::new(), |group| group.inside());
            self.open.push(Level::of(inside));
        }
    }

    /// Creates the error that the next tree, or the end of the input, isn't the expected `what`.
    #[inline]
    fn expected(&mut self, what: &str) -> MacroError {
        match self.peek() {
            Some(tree) => tree.error(format_args!("expected {what}")),
            None => {
                let message = format_args!("unexpected end of input, expected {what}");
                MacroError::near(message, self.before, self.before)
            }
        }
    }
}

/// Returns the entries of the trees, with commas between them.
pub(crate) fn entries_of(trees: Vec<Tree>) -> Result<Vec<Meta>, MacroError> {
    let (mut trees, mut metas) = (Trees::of(trees), Vec::new());
    while trees.peek().is_some() {
        metas.push(next_meta(&mut trees)?);
        let Some(tree) = trees.next() else { break };
        return Err(tree.error(match tree.mark() {
            Some((',', _)) => continue,
            Some(('>', _)) => "expected `,`: before `<` with a comma inside, write `::`",
            Some(('<', _)) => "ambiguous `<`: write `::<`, or a comparison in parentheses",
            _ => "expected `,`",
        }));
    }
    Ok(metas)
}

/// Consumes and returns the next entry.
#[inline]
fn next_meta(trees: &mut Trees) -> Result<Meta, MacroError> {
    let (name, first, last) = next_name(trees)?;
    let form = match trees.peek().and_then(Tree::delimiter) {
        Some(delimiter) if delimiter != Delimiter::None => trees.next().map(Form::List),
        _ => match trees.next_mark('=') {
            Some(_) => Some(Form::Value(value_of_entry(trees)?)),
            None => None,
        },
    };
    Ok(Meta {
        name,
        first,
        last,
        form: form.unwrap_or(Form::Flag),
    })
}

/// Consumes a path. Returns it as text, with its first and its last span.
#[inline]
fn next_name(trees: &mut Trees) -> Result<(String, Option<Span>, Option<Span>), MacroError> {
    trees.open_groups();
    let (mut name, mut first) = (String::new(), None);
    loop {
        if let Some(colon) = trees.next_mark(':') {
            first = first.or(colon.span());
            if colon.mark() != Some((':', Spacing::Joint)) || trees.next_mark(':').is_none() {
                // One colon after a name is a mistake for `=`, as in `name: "a"`.
                let is_named = !name.is_empty();
                let expected = if is_named { "`=`" } else { "identifier" };
                return Err(colon.error(format_args!("expected {expected}")));
            }
            name.push_str("::");
        }
        let word = trees.peek().and_then(Tree::word).filter(|it| it != "_");
        let Some(word) = word else {
            return Err(trees.expected("identifier"));
        };
        let span = trees.next().and_then(|tree| tree.span());
        name.push_str(word.strip_prefix("r#").unwrap_or(&word));
        first = first.or(span);
        if !trees.peek().is_some_and(|tree| tree.is_mark(':')) {
            return Ok((name, first, span));
        }
    }
}

/// Consumes the attributes `#[..]` before an item, a field or a variant, and returns an entry for each attribute, in order.
///
/// A doc comment is an entry with the name `doc`. [`Attrs::join`] joins the entries of attributes with the same name.
///
/// # Errors
///
/// Returns an error if no `[..]` follows a `#`, or if the tokens inside aren't one entry.
///
/// ```no_run
/// extern crate proc_macro;
/// use navyspindle::{next_attributes, Attrs, MacroError};
/// use proc_macro::TokenStream;
///
/// /// Returns whether a struct has the flag `#[opt(skip)]`, and the tokens after its attributes, such as `pub struct A;`.
/// fn skipped(item: TokenStream) -> Result<(bool, TokenStream), MacroError> {
///     let mut tokens = item.into_iter().peekable();
///     let metas = next_attributes(&mut tokens)?;
///     Ok((Attrs::join("opt", &metas)?.flag("skip")?, tokens.collect()))
/// }
/// ```
pub fn next_attributes(
    tokens: &mut Peekable<impl Iterator<Item = TokenTree>>,
) -> Result<Vec<Meta>, MacroError> {
    let mut metas = Vec::new();
    let is_hash = |tree: &TokenTree| matches!(tree, TokenTree::Punct(it) if it.as_char() == '#');
    while let Some(hash) = tokens.next_if(is_hash) {
        match tokens.next() {
            Some(TokenTree::Group(group)) if group.delimiter() == Delimiter::Bracket => {
                metas.push(Meta::parse(group.stream())?);
            }
            other => {
                let span = other.map_or_else(|| hash.span(), |tree| tree.span());
                return Err(MacroError::new("expected `[`", span));
            }
        }
    }
    Ok(metas)
}

/// Consumes and returns the tokens before the next comma or semicolon. They may be an expression. The comma stays.
///
/// The tokens aren't parsed. The value ends where [`Meta`] ends a value, with one exception: after a name, `<` is always an operator,
/// because the tokens after the comma can't be seen. So write a type with two arguments as `Map::<A, B>` or `<Map<A, B>>`.
///
/// # Errors
///
/// Returns an error if there is no token before the comma or the end.
///
/// ```no_run
/// extern crate proc_macro;
/// use navyspindle::{next_literal, next_value, Lit, MacroError};
/// use proc_macro::{TokenStream, TokenTree};
///
/// /// Reads `"a": f(1, 2), "b": 3`.
/// fn map(input: TokenStream) -> Result<Vec<(Lit<'static>, TokenStream)>, MacroError> {
///     let (mut tokens, mut entries) = (input.into_iter().peekable(), Vec::new());
///     while tokens.peek().is_some() {
///         let (key, span) = next_literal(&mut tokens)?;
///         match tokens.next() {
///             Some(TokenTree::Punct(mark)) if mark.as_char() == ':' => {}
///             _ => return Err(MacroError::new("expected `:` after the key", span)),
///         }
///         entries.push((key, next_value(&mut tokens)?));
///         tokens.next(); // the comma
///     }
///     Ok(entries)
/// }
/// ```
pub fn next_value(
    tokens: &mut Peekable<impl Iterator<Item = TokenTree>>,
) -> Result<TokenStream, MacroError> {
    let mut end = ValueEnd::default();
    let mut is_inside = |tree: &TokenTree| !end.is_at(Tree::Token(tree.clone()).shape());
    let value: Vec<_> = core::iter::from_fn(|| tokens.next_if(&mut is_inside)).collect();
    if !value.is_empty() {
        return Ok(value.into_iter().collect());
    }
    Err(match tokens.peek() {
        Some(tree) => MacroError::new("expected a value", tree.span()),
        None => {
            let message = "unexpected end of input, expected a value";
            MacroError::near(message, None, None)
        }
    })
}

/// Consumes and returns the value of an entry: all token trees up to the one that ends it.
#[inline]
fn value_of_entry(trees: &mut Trees) -> Result<Vec<Tree>, MacroError> {
    let (mut end, mut value) = (ValueEnd::default(), Vec::new());
    while trees.shape().is_some_and(|shape| !end.is_at(shape)) {
        value.extend(trees.next());
    }
    // A value that begins with `=` or `>` belongs to the token `==` or `=>`, which can't follow a name.
    match value.first() {
        Some(tree) if tree.is_mark('=') || tree.is_mark('>') => Err(tree.error("expected a value")),
        Some(_) => Ok(value),
        None => Err(trees.expected("a value")),
    }
}
