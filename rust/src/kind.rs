//! The kinds of literals.

#[cfg(feature = "flaws")]
use crate::rl_syntax;
use core::fmt;

/// The kind of a literal.
///
/// ```
/// use navyspindle::{Kind, Lit};
///
/// let kind = Lit::of_text("b'a'").kind();
/// assert_eq!(kind, Kind::Byte);
/// assert_eq!(kind.to_string(), "byte literal");
/// ```
#[doc(alias = "LitKind")]
#[derive(Clone, Copy, Debug, PartialEq, Eq, PartialOrd, Ord, Hash)]
#[non_exhaustive]
pub enum Kind {
    /// A string literal, such as `"a"`.
    Str,
    /// A byte string literal, such as `b"a"`.
    ByteStr,
    /// A C string literal, such as `c"a"`.
    CStr,
    /// A byte literal, such as `b'a'`.
    Byte,
    /// A character literal, such as `'a'`.
    Char,
    /// An integer literal, such as `1`.
    Int,
    /// A float literal, such as `1.5`.
    Float,
    /// A `bool` literal, such as `true`.
    Bool,
    /// A text without a value, such as `'\q'` or an integer above 128 bits.
    Verbatim,
}

#[cfg(feature = "flaws")]
impl Kind {
    #[inline]
    pub(crate) fn of(kind: rl_syntax::Kind) -> Kind {
        match kind {
            rl_syntax::Kind::Str => Kind::Str,
            rl_syntax::Kind::ByteStr => Kind::ByteStr,
            rl_syntax::Kind::CStr => Kind::CStr,
            rl_syntax::Kind::Byte => Kind::Byte,
            rl_syntax::Kind::Char => Kind::Char,
            rl_syntax::Kind::Int => Kind::Int,
            rl_syntax::Kind::Float => Kind::Float,
            rl_syntax::Kind::Bool => Kind::Bool,
        }
    }
}

/// Prints the kind as `syn` names it in messages: `string literal`, `integer literal`, and so on.
impl fmt::Display for Kind {
    fn fmt(&self, f: &mut fmt::Formatter<'_>) -> fmt::Result {
        f.pad(match self {
            Kind::Str => "string literal",
            Kind::ByteStr => "byte string literal",
            Kind::CStr => "C string literal",
            Kind::Byte => "byte literal",
            Kind::Char => "character literal",
            Kind::Int => "integer literal",
            Kind::Float => "floating point literal",
            Kind::Bool => "boolean literal",
            Kind::Verbatim => "text without a value",
        })
    }
}
