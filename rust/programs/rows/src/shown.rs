//! Shows the values of the core as lists in parentheses, as `tools/core_calls.py` shows the values of the proved code.
//!
//! A struct is the list of its fields. A value of an enum is the list of its variant's number and the variant's fields. A text is in
//! double quotes, and a character is its number.

use navyspindle::rendered::rl_cursors::*;
use navyspindle::rendered::rl_flaws::{Edition, InvalidPiece, NumberType, Piece, TypeError};
use navyspindle::rendered::rl_lenient::{Body, FloatParts, Found, IntegerParts, Parts};
use navyspindle::rendered::rl_lexer::{Form, LexError, LexKind, Lexeme, SourceForm, SourceToken};
use navyspindle::rendered::rl_strict::{Flaw, FlawKind, Reading};
use navyspindle::rendered::rl_style::Restylable;
use navyspindle::rendered::rl_syntax::{IntegerType, Kind, Span};

/// A value that is shown.
pub trait Shown {
    /// Returns the value as text.
    fn shown(&self) -> String;
}

/// Shows values as a list.
fn list(values: &[&dyn Shown]) -> String {
    let values: Vec<String> = values.iter().map(|it| it.shown()).collect();
    format!("({})", values.join(" "))
}

/// Shows the values of each type as the text that the expression returns.
macro_rules! texts {
    ($($type:ty: $it:ident => $text:expr;)+) => {$(
        impl Shown for $type {
            fn shown(&self) -> String {
                let $it = self;
                $text
            }
        }
    )+};
}

/// Shows a struct as the list of these fields.
macro_rules! structs {
    ($($type:ty: $($field:ident)+;)+) => { texts! { $($type: it => list(&[$(&it.$field),+]);)+ } };
}

/// Shows an enum's value as the list of its variant's number and these fields.
macro_rules! enums {
    ($($type:ty { $($variant:ident $(($($field:ident)+))? = $number:literal)+ })+) => { texts! { $($type: it => match it {
        $(Self::$variant $(($($field),+))? => list(&[&$number $($(, $field)+)?]),)+
        #[allow(unreachable_patterns)]
        _ => panic!("a variant without a number"),
    };)+ } };
}

/// Shows a value of an enum without fields as the list of its variant's number.
macro_rules! plain_enums {
    ($($type:ty)+) => { texts! { $($type: it => list(&[&(*it as u8)]);)+ } };
}

texts! {
    bool: it => it.to_string();
    char: it => u32::from(*it).to_string();
    i32: it => it.to_string();
    u8: it => it.to_string();
    u32: it => it.to_string();
    u128: it => it.to_string();
    usize: it => it.to_string();
    &str: it => format!("\"{it}\"");
}

impl<T: Shown, U: Shown> Shown for (T, U) {
    fn shown(&self) -> String {
        list(&[&self.0, &self.1])
    }
}

impl<T: Shown> Shown for Option<T> {
    fn shown(&self) -> String {
        self.as_ref().map_or(list(&[&0]), |it| list(&[&1, it]))
    }
}

impl<T: Shown, E: Shown> Shown for Result<T, E> {
    fn shown(&self) -> String {
        self.as_ref()
            .map_or_else(|it| list(&[&1, it]), |it| list(&[&0, it]))
    }
}

structs! {
    Body: lo hi suffix_at plain;
    DottedName<'_>: text lo hi;
    EntryRejection<'_>: name error;
    Flaw: kind from lo hi;
    FloatParts<'_>: integer fraction exponent;
    Found: magnitude body kind truth unit;
    IntegerParts<'_>: radix digits;
    InvalidPiece: flaw end;
    LeadingLiteral<'_>: text found following;
    LexError: kind at;
    Lexeme<'_>: form text lo hi;
    NextEntry<'_>: name value;
    NextLiteral<'_>: token minus_at found;
    NextSetting<'_>: name value;
    Parts<'_>: kind body suffix;
    Rejection: kind at;
    Restylable<'_>: token is_field in_macro;
    Segment<'_>: lo hi value;
    SettingRejection<'_>: name error;
    SourceToken<'_>: form text lo hi;
    Span: file lo hi;
    SyntaxError: kind lo hi;
}

plain_enums! { Edition FlawKind IntegerType Kind LexKind Part TypeError }

enums! {
    EntryStep<'_> { End = 0 Entry(it) = 1 Rejected(it) = 2 }
    Form { Literal = 0 Identifier = 1 Delimiter(it) = 2 Mark(it) = 3 }
    ListStep<'_> { End = 0 Literal(it) = 1 Rejected(it) = 2 }
    NumberType { Integer(it) = 0 F32 = 1 F64 = 2 }
    Piece<'_> { Good(it) = 0 Bad(it) = 1 }
    Reading { Text(kind body) = 0 Unit(kind body unit) = 1 Integer(value suffix_at) = 2 Float(suffix_at) = 3 Truth(it) = 4 }
    RejectionKind { Lex(it) = 0 Group = 1 UnmatchedClose = 2 NotALiteral = 3 }
    SegmentValue<'_> { Text(it) = 0 Char(it) = 1 Byte(it) = 2 Nothing = 3 }
    SettingStep<'_> { End = 0 Setting(it) = 1 Rejected(it) = 2 }
    SourceForm { Token(it) = 0 RawIdentifier = 1 Lifetime = 2 DocComment = 3 Stray = 4 }
    SourceStep<'_> { End = 0 Literal(token found) = 1 Rejected(it) = 2 }
    SyntaxErrorKind {
        NotALiteral = 0 NoNumber = 1 Group = 2 Expected(it) = 3 EndOfInput(it) = 4 Repeated = 5 DocComment = 6 UnclosedComment = 7
        UnclosedQuote = 8 Lifetime = 9 RawIdentifier = 10 StrayCharacter = 11 UnmatchedClose = 12 UnclosedGroup = 13 TooDeep = 14
    }
}
