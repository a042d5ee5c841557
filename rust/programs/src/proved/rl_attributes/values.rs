// Rendered from crates/rl_attributes/src/values.rt by tools/render, which erases contracts: change that file, and render again.
//! Functions that return the value of a setting as a string, a number, an unsigned integer or a `bool`.

use crate::rattle_std::prelude::{Drop, String};
use crate::rl_attributes::attributes::Attrs;
use crate::rl_attributes::settings::{Setting, SettingError};
use crate::rl_lenient::parse_int_literal;
use crate::rl_syntax::text::begins_with_char;
use crate::rust_literals::Lit;
use crate::rattle_std::alloc::Allocator;
use crate::rattle_std::fmt::Display;
use crate::rattle_std::str::FromStr;

fn other_kind<A: Allocator>(setting: Setting, value: &Lit<A>) -> SettingError<A> {
    match value {
        Lit::Verbatim(literal) => SettingError::Malformed(setting, literal.span()),
        other => SettingError::Kind(setting, other.span()),
    }
}

fn string_of<A: Allocator>(
    alloc: A,
    setting: Setting,
    value: &Lit<A>,
) -> Result<String<A>, SettingError<A>> {
    match value {
        Lit::Str(literal) => Ok(literal.value(alloc)?),
        other => Err(other_kind(setting, other)),
    }
}

fn bool_of<A: Allocator>(setting: Setting, value: &Lit<A>) -> Result<bool, SettingError<A>> {
    match value {
        Lit::Bool(literal) => Ok(literal.value()),
        other => Err(other_kind(setting, other)),
    }
}

fn unsigned_value(text: &str, most: u64) -> Option<u64> {
    if begins_with_char(text, '-') {
        return None;
    }
    let found = parse_int_literal(text)??;
    if found.magnitude > most as u128 {
        return None;
    }
    Some(found.magnitude as u64)
}

fn unsigned_of<A: Allocator>(
    setting: Setting,
    most: u64,
    value: &Lit<A>,
) -> Result<u64, SettingError<A>> {
    match value {
        Lit::Int(literal) => match unsigned_value(literal.text(), most) {
            Some(number) => Ok(number),
            None => Err(SettingError::Kind(setting, literal.span())),
        },
        other => Err(other_kind(setting, other)),
    }
}

fn number_of<N: FromStr, A: Allocator>(
    alloc: A,
    setting: Setting,
    value: &Lit<A>,
) -> Result<N, SettingError<A>>
where
    N::Err: Display + Drop, {
    let parsed = match value {
        Lit::Int(literal) => literal.base10_parse(alloc),
        Lit::Float(literal) => literal.base10_parse(alloc),
        other => return Err(other_kind(setting, other)),
    };
    match parsed {
        Ok(number) => Ok(number),
        Err(error) => Err(SettingError::Value(setting, error)),
    }
}

impl<A: Allocator> Attrs<A> {
    fn found_string(&self, alloc: A, setting: Setting) -> Result<Option<String<A>>, SettingError<A>> {
        let Some(value) = self.get(setting.name) else {
            return Ok(None);
        };
        match string_of(alloc, setting, value) {
            Ok(text) => Ok(Some(text)),
            Err(error) => Err(error),
        }
    }

    fn found_number<N: FromStr>(
        &self,
        alloc: A,
        setting: Setting,
    ) -> Result<Option<N>, SettingError<A>>
    where
        N::Err: Display + Drop, {
        let Some(value) = self.get(setting.name) else {
            return Ok(None);
        };
        match number_of(alloc, setting, value) {
            Ok(number) => Ok(Some(number)),
            Err(error) => Err(error),
        }
    }

    fn found_unsigned(&self, setting: Setting, most: u64) -> Result<Option<u64>, SettingError<A>> {
        let Some(value) = self.get(setting.name) else {
            return Ok(None);
        };
        match unsigned_of(setting, most, value) {
            Ok(number) => Ok(Some(number)),
            Err(error) => Err(error),
        }
    }

    fn found_truth(&self, setting: Setting) -> Result<Option<bool>, SettingError<A>> {
        let Some(value) = self.get(setting.name) else {
            return Ok(None);
        };
        match bool_of(setting, value) {
            Ok(truth) => Ok(Some(truth)),
            Err(error) => Err(error),
        }
    }
}

impl<A: Allocator> Attrs<A> {
    pub fn string(&self, alloc: A, setting: Setting) -> Result<Option<String<A>>, SettingError<A>> {
        self.found_string(alloc, setting)
    }

    pub fn number<N: FromStr>(
        &self,
        alloc: A,
        setting: Setting,
    ) -> Result<Option<N>, SettingError<A>>
    where
        N::Err: Display + Drop, {
        self.found_number(alloc, setting)
    }

    pub fn unsigned(&self, setting: Setting, most: u64) -> Result<Option<u64>, SettingError<A>> {
        self.found_unsigned(setting, most)
    }

    pub fn bool(&self, setting: Setting) -> Result<Option<bool>, SettingError<A>> {
        self.found_truth(setting)
    }

    pub fn missing_error(&self, setting: Setting) -> SettingError<A> {
        SettingError::Missing(setting, self.end_span())
    }
}
