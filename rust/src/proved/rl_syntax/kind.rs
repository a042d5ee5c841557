// Rendered from crates/rl_syntax/src/kind.rt by tools/render, which erases contracts: change that file, and render again.
//! The kinds of literals, and their names in messages.

pub const STR_OPENER: &str = "\"";

pub const BYTE_STR_OPENER: &str = "b\"";

pub const C_STR_OPENER: &str = "c\"";

pub const BYTE_OPENER: &str = "b'";

pub const CHAR_OPENER: &str = "'";

#[derive(Clone, Copy, PartialEq, Eq, Debug)]
pub enum Kind {
    Str,
    ByteStr,
    CStr,
    Byte,
    Char,
    Int,
    Float,
    Bool,
}

impl Kind {
    pub fn is_string(self) -> bool {
        matches!(self, Kind::Str | Kind::ByteStr | Kind::CStr)
    }

    pub fn decodes_to_chars(self) -> bool {
        matches!(self, Kind::Str | Kind::Char)
    }

    #[inline(always)]
    pub fn opener(self) -> &'static str {
        match self {
            Kind::Str => STR_OPENER,
            Kind::ByteStr => BYTE_STR_OPENER,
            Kind::CStr => C_STR_OPENER,
            Kind::Byte => BYTE_OPENER,
            Kind::Char => CHAR_OPENER,
            Kind::Int | Kind::Float | Kind::Bool => "",
        }
    }

    #[inline(always)]
    pub fn quote(self) -> char {
        match self {
            Kind::Byte | Kind::Char => '\'',
            _ => '"',
        }
    }

    #[cfg(feature = "__rendered")]
    pub fn description(self) -> &'static str {
        match self {
            Kind::Str => "string literal",
            Kind::ByteStr => "byte string literal",
            Kind::CStr => "C string literal",
            Kind::Byte => "byte literal",
            Kind::Char => "character literal",
            Kind::Int => "integer literal",
            Kind::Float => "floating point literal",
            Kind::Bool => "boolean literal",
        }
    }

    #[cfg(feature = "__rendered")]
    pub fn display_name(self) -> &'static str {
        match self {
            Kind::CStr => "C-string literal",
            _ => self.description(),
        }
    }

    #[cfg(feature = "__rendered")]
    pub fn struct_name(self) -> &'static str {
        match self {
            Kind::Str => "LitStr",
            Kind::ByteStr => "LitByteStr",
            Kind::CStr => "LitCStr",
            Kind::Byte => "LitByte",
            Kind::Char => "LitChar",
            Kind::Int => "LitInt",
            Kind::Float => "LitFloat",
            Kind::Bool => "LitBool",
        }
    }
}
