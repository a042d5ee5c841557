// Rendered from crates/rl_attributes/src/required.rt by tools/render, which erases contracts: change that file, and render again.
//! Functions that return the value of a required setting, or of a setting with a default.

use crate::rattle_std::prelude::{Drop, String};
use crate::rl_attributes::attributes::Attrs;
use crate::rl_attributes::settings::{Setting, SettingError};
use crate::rattle_std::alloc::Allocator;
use crate::rattle_std::fmt::Display;
use crate::rattle_std::str::FromStr;

impl<A: Allocator> Attrs<A> {
    pub fn required_string(&self, alloc: A, setting: Setting) -> Result<String<A>, SettingError<A>> {
        match self.string(alloc, setting) {
            Ok(Some(text)) => Ok(text),
            Ok(None) => Err(self.missing_error(setting)),
            Err(error) => Err(error),
        }
    }

    pub fn required_number<N: FromStr>(
        &self,
        alloc: A,
        setting: Setting,
    ) -> Result<N, SettingError<A>>
    where
        N::Err: Display + Drop, {
        match self.number::<N>(alloc, setting) {
            Ok(Some(number)) => Ok(number),
            Ok(None) => Err(self.missing_error(setting)),
            Err(error) => Err(error),
        }
    }

    pub fn required_unsigned(&self, setting: Setting, most: u64) -> Result<u64, SettingError<A>> {
        match self.unsigned(setting, most) {
            Ok(Some(value)) => Ok(value),
            Ok(None) => Err(self.missing_error(setting)),
            Err(error) => Err(error),
        }
    }

    pub fn unsigned_or(
        &self,
        setting: Setting,
        most: u64,
        default: u64,
    ) -> Result<u64, SettingError<A>> {
        let found = self.unsigned(setting, most);
        match found {
            Ok(value) => Ok(value.unwrap_or(default)),
            Err(error) => Err(error),
        }
    }

    pub fn required_bool(&self, setting: Setting) -> Result<bool, SettingError<A>> {
        match self.bool(setting) {
            Ok(Some(truth)) => Ok(truth),
            Ok(None) => Err(self.missing_error(setting)),
            Err(error) => Err(error),
        }
    }

    pub fn bool_or(&self, setting: Setting, default: bool) -> Result<bool, SettingError<A>> {
        let found = self.bool(setting);
        match found {
            Ok(found) => Ok(found.unwrap_or(default)),
            Err(error) => Err(error),
        }
    }
}
