// Rendered from crates/rl_cursors/src/syntax_error.rt by tools/render, which erases contracts: change that file, and render again.
//! The errors of a text of literals, of settings, or of a source.

use crate::rl_cursors::next_literals::RejectionKind;
use crate::rl_lexer::LexKind;
use core::fmt;

/// A part of a setting: the name, `=`, the literal, or the comma.
#[derive(Clone, Copy, PartialEq, Eq, Hash, Debug)]
#[non_exhaustive]
pub enum Part {
    /// The name of a setting, an identifier.
    Name,
    /// The `=` after the name of a setting.
    Equals,
    /// The literal after the `=` of a setting.
    Literal,
    /// The comma after the literal of a setting.
    Comma,
}

/// A kind of error in a list of literals, in settings, or in a source.
#[derive(Clone, Copy, PartialEq, Eq, Hash, Debug)]
#[non_exhaustive]
pub enum SyntaxErrorKind {
    /// An identifier or a punctuation character in a list of literals, where a literal was expected.
    NotALiteral,
    /// A minus in a list of literals that isn't followed by a number up to 128 bits.
    NoNumber,
    /// An opening delimiter in a list of literals, where a literal was expected.
    Group,
    /// A token or group in settings, where the given part of a setting was expected.
    Expected(Part),
    /// The end of the settings, where the given part of a setting was expected.
    EndOfInput(Part),
    /// A setting with a name that an earlier setting has.
    Repeated,
    /// A doc comment, which isn't allowed.
    DocComment,
    /// A block comment that isn't closed.
    UnclosedComment,
    /// A quoted literal that isn't closed.
    UnclosedQuote,
    /// A lifetime, which isn't allowed.
    Lifetime,
    /// A raw identifier, which isn't allowed.
    RawIdentifier,
    /// A character that begins no token.
    StrayCharacter,
    /// A closing delimiter that doesn't match the innermost open group. In a list no group is open, so each closing
    /// delimiter is this error.
    UnmatchedClose,
    /// A group whose closing delimiter is missing.
    UnclosedGroup,
    /// Groups nested more than 128 deep.
    TooDeep,
}

#[derive(Clone, Copy, PartialEq, Eq, Debug)]
pub struct SyntaxError {
    pub kind: SyntaxErrorKind,
    pub lo: usize,
    pub hi: usize,
}

impl Part {
    /// Returns the name of the part for messages, for example `identifier`.
    #[inline]
    pub fn noun(self) -> &'static str {
        match self {
            Part::Name => "identifier",
            Part::Equals => "`=`",
            Part::Literal => "literal",
            Part::Comma => "`,`",
        }
    }

    /// Returns the error message for another token in the part's place, for example `expected identifier`.
    #[inline]
    fn expected(self) -> &'static str {
        match self {
            Part::Name => "expected identifier",
            Part::Equals => "expected `=`",
            Part::Literal => "expected literal",
            Part::Comma => "expected `,`",
        }
    }

    /// Returns the error message for a text that ends before the part.
    #[inline]
    fn ended(self) -> &'static str {
        match self {
            Part::Name => "unexpected end of input, expected identifier",
            Part::Equals => "unexpected end of input, expected `=`",
            Part::Literal => "unexpected end of input, expected literal",
            Part::Comma => "unexpected end of input, expected `,`",
        }
    }
}

impl SyntaxErrorKind {
    /// Returns the error message, for example `not a literal`.
    #[inline]
    pub fn message(self) -> &'static str {
        match self {
            SyntaxErrorKind::NotALiteral => "not a literal",
            SyntaxErrorKind::NoNumber => "expected number up to 128 bits after `-`",
            SyntaxErrorKind::Group => "expected literal, found group",
            SyntaxErrorKind::Expected(part) => part.expected(),
            SyntaxErrorKind::EndOfInput(part) => part.ended(),
            SyntaxErrorKind::Repeated => "repeated name",
            SyntaxErrorKind::DocComment => "unexpected doc comment",
            SyntaxErrorKind::UnclosedComment => "unclosed block comment",
            SyntaxErrorKind::UnclosedQuote => "unclosed quote",
            SyntaxErrorKind::Lifetime => "unexpected lifetime: a string has double quotes",
            SyntaxErrorKind::RawIdentifier => "unexpected raw identifier",
            SyntaxErrorKind::StrayCharacter => "stray character",
            SyntaxErrorKind::UnmatchedClose => "unmatched closing delimiter",
            SyntaxErrorKind::UnclosedGroup => "unclosed group",
            SyntaxErrorKind::TooDeep => "groups nested too deep",
        }
    }
}

#[inline]
pub fn lexer_error(kind: LexKind) -> SyntaxErrorKind {
    match kind {
        LexKind::DocComment => SyntaxErrorKind::DocComment,
        LexKind::UnclosedComment => SyntaxErrorKind::UnclosedComment,
        LexKind::UnclosedQuote => SyntaxErrorKind::UnclosedQuote,
        LexKind::Lifetime => SyntaxErrorKind::Lifetime,
        LexKind::RawIdentifier => SyntaxErrorKind::RawIdentifier,
        LexKind::StrayCharacter => SyntaxErrorKind::StrayCharacter,
        LexKind::UnmatchedClose => SyntaxErrorKind::UnmatchedClose,
        LexKind::UnclosedGroup => SyntaxErrorKind::UnclosedGroup,
        LexKind::TooDeep => SyntaxErrorKind::TooDeep,
        LexKind::Memory => unreachable!(),
    }
}

#[inline]
pub fn list_error(kind: RejectionKind, rest: &str) -> SyntaxErrorKind {
    match kind {
        RejectionKind::Lex(kind) => lexer_error(kind),
        RejectionKind::Group => SyntaxErrorKind::Group,
        RejectionKind::UnmatchedClose => SyntaxErrorKind::UnmatchedClose,
        RejectionKind::NotALiteral => match rest.as_bytes().first() {
            Some(b'-') => SyntaxErrorKind::NoNumber,
            _ => SyntaxErrorKind::NotALiteral,
        },
    }
}

impl fmt::Display for SyntaxErrorKind {
    #[inline]
    fn fmt(&self, f: &mut fmt::Formatter<'_>) -> fmt::Result {
        f.pad(self.message())
    }
}

impl core::error::Error for SyntaxErrorKind {}
