//! Lists of literals.

use crate::list_error::ListError;
use crate::lit::Lit;
use crate::next_literal::placed;
use crate::rl_cursors::{ListLiterals, ListStep};
use core::fmt;
use core::iter::FusedIterator;
use core::ops::Range;

/// An iterator over the literals of a list, each with its byte range. See [`parse_list`].
///
/// ```
/// use navyspindle::{parse_list, Literals};
///
/// let mut literals: Literals = parse_list("-1 'a'");
/// let (range, literal) = literals.next().unwrap()?;
/// assert_eq!((range, literal.text()), (0..2, "-1"));
/// # Ok::<(), navyspindle::ListError>(())
/// ```
#[must_use = "an iterator does nothing until it is asked"]
pub struct Literals<'t> {
    text: &'t str,
    list: ListLiterals<'t>,
}

/// Iterates over the literals of a text, up to the first error. White space and plain comments separate the literals.
///
/// A minus before a number belongs to the literal, also with white space or comments between them.
///
/// A literal token without a value, such as `'\q'` or an integer above 128 bits, is returned as [`Lit::Verbatim`], whose method
/// `explain` returns the reason. After a minus it is the error [`SyntaxErrorKind::NoNumber`](crate::SyntaxErrorKind::NoNumber).
/// [`Lit::check`] returns whether Rust accepts a literal too.
///
/// A token that doesn't begin a literal ends the list with an error:
///
/// - An identifier or punctuation is [`SyntaxErrorKind::NotALiteral`](crate::SyntaxErrorKind::NotALiteral).
/// - An opening delimiter is [`SyntaxErrorKind::Group`](crate::SyntaxErrorKind::Group).
/// - A closing delimiter is [`SyntaxErrorKind::UnmatchedClose`](crate::SyntaxErrorKind::UnmatchedClose).
///
/// ```
/// use navyspindle::{parse_list, SyntaxErrorKind, Lit};
///
/// let mut list = parse_list("0xFF_u8 - /* two */ 1.5 'a");
/// let (range, literal) = list.next().unwrap()?;
/// assert_eq!((range, literal.suffix()), (0..7, "u8"));
/// let (range, literal) = list.next().unwrap()?;
/// let Lit::Float(float) = literal else { panic!() };
/// assert_eq!((range, &*float.base10_digits()), (8..23, "-1.5"));
/// let error = list.next().unwrap().unwrap_err();
/// assert_eq!((error.kind(), error.range()), (SyntaxErrorKind::Lifetime, 24..26));
/// assert!(list.next().is_none());
/// # Ok::<(), navyspindle::ListError>(())
/// ```
pub fn parse_list(text: &str) -> Literals<'_> {
    Literals {
        text,
        list: ListLiterals::new(text),
    }
}

impl<'t> Iterator for Literals<'t> {
    type Item = Result<(Range<usize>, Lit<'t>), ListError>;

    fn next(&mut self) -> Option<Self::Item> {
        match self.list.next() {
            ListStep::Literal(next) => Some(Ok(placed(self.text, next))),
            ListStep::End => None,
            ListStep::Rejected(rejection) => Some(Err(ListError::of_list(self.text, rejection))),
        }
    }
}

impl FusedIterator for Literals<'_> {}

/// A clone and the original iterator advance independently.
impl Clone for Literals<'_> {
    fn clone(&self) -> Self {
        Literals {
            text: self.text,
            list: self.list.fork(),
        }
    }
}

/// Prints the rest of the text.
impl fmt::Debug for Literals<'_> {
    fn fmt(&self, f: &mut fmt::Formatter<'_>) -> fmt::Result {
        f.debug_tuple("Literals").field(&self.list.rest()).finish()
    }
}
