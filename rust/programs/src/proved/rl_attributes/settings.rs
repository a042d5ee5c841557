// Rendered from crates/rl_attributes/src/settings.rt by tools/render, which erases contracts: change that file, and render again.
//! The type of settings, the check that names are known and values have no suffix, and the type of errors.

use crate::rl_attributes::attributes::{Attrs, Entry};
use crate::rl_tokens::{Error, Span};
use crate::rust_literals::Lit;
use crate::rattle_std::alloc::{AllocError, Allocator, Global};
use crate::rattle_std::fmt;

#[derive(Clone, Copy, PartialEq, Eq, Debug)]
pub struct Setting {
    pub name: &'static str,
    pub expected: &'static str,
}

impl fmt::Display for Setting {
    fn fmt(&self, f: &mut fmt::Formatter<'_>) -> fmt::Result {
        let name = self.name;
        let expected = self.expected;
        write!(f, "{name}: expected {expected}")
    }
}

pub enum SettingError<A: Allocator = Global> {
    Text(Error<A>),
    Unknown(Span),
    Suffix(Span),
    Kind(Setting, Span),
    Malformed(Setting, Span),
    Value(Setting, Error<A>),
    Missing(Setting, Span),
}

impl<A: Allocator> SettingError<A> {
    pub fn span(&self) -> Span {
        match self {
            SettingError::Text(error) => error.span,
            SettingError::Unknown(span) => *span,
            SettingError::Suffix(span) => *span,
            SettingError::Kind(_, span) => *span,
            SettingError::Malformed(_, span) => *span,
            SettingError::Value(_, error) => error.span,
            SettingError::Missing(_, span) => *span,
        }
    }
}

impl<A: Allocator> fmt::Display for SettingError<A> {
    fn fmt(&self, f: &mut fmt::Formatter<'_>) -> fmt::Result {
        match self {
            SettingError::Text(error) => write!(f, "{error}"),
            SettingError::Unknown(_) => f.write_str("unknown name"),
            SettingError::Suffix(_) => f.write_str("unexpected suffix"),
            SettingError::Kind(setting, _) => write!(f, "{setting}"),
            SettingError::Malformed(setting, _) => {
                let name = setting.name;
                write!(f, "{name}: malformed literal")
            }
            SettingError::Value(setting, error) => write!(f, "{setting}: {error}"),
            SettingError::Missing(setting, _) => write!(f, "missing {setting}"),
        }
    }
}

impl<A: Allocator> From<Error<A>> for SettingError<A> {
    fn from(error: Error<A>) -> SettingError<A> {
        SettingError::Text(error)
    }
}

impl<A: Allocator> From<AllocError> for SettingError<A> {
    fn from(_failed: AllocError) -> SettingError<A> {
        SettingError::Text(Error::out_of_memory(Span::call_site()))
    }
}

fn is_known(settings: &[Setting], name: &str) -> bool {
    settings.iter().any(|setting| setting.name == name)
}

fn is_some(text: &str) -> bool {
    !text.is_empty()
}

fn has_suffix<A: Allocator>(literal: &Lit<A>) -> bool {
    is_some(literal.suffix())
}

fn check_entry<A: Allocator>(entry: &Entry<A>, settings: &[Setting]) -> Result<(), SettingError<A>> {
    if !is_known(settings, entry.name.as_str()) {
        Err(SettingError::Unknown(entry.span))
    } else if has_suffix(&entry.value) {
        Err(SettingError::Suffix(entry.value.span()))
    } else {
        Ok(())
    }
}

impl<A: Allocator> Attrs<A> {
    pub fn check(&self, settings: &[Setting]) -> Result<(), SettingError<A>> {
        for entry in self.entries() {
            check_entry(entry, settings)?;
        }
        Ok(())
    }
}
