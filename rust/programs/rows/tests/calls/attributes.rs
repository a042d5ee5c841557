//! Tests calls on attributes whose results `rl_tool` doesn't print.

use crate::rows::{check, check_headings};
use crate::shown::{line, range, value_or_error, HERE};
use navyspindle_programs::rattle_std::alloc::Global;
use navyspindle_programs::rl_attributes::{read, Attrs, Setting, SettingError};
use navyspindle_programs::rl_program::Rejection;
use navyspindle_programs::rust_literals::LitStr;
use std::fmt::Display;

const TABLE: &str = include_str!("attributes.rows");

#[test]
fn headings() {
    check_headings(TABLE, include_str!("attributes.rs"));
}

/// Shows a setting's value, or the error, or the error that the setting is missing.
fn set<T: Display>(value: Result<Option<T>, SettingError>, missing: SettingError) -> String {
    match value {
        Ok(Some(value)) => format!("{value}\n"),
        Ok(None) => format!("{} {missing}\n", range(missing.span())),
        Err(error) => format!("{} {error}\n", range(error.span())),
    }
}

/// The settings that the rows of this table contain.
const NAME: Setting = Setting {
    name: "name",
    expected: "a string",
};
const PORT: Setting = Setting {
    name: "port",
    expected: "an integer from 0 to 65535",
};
const VERBOSE: Setting = Setting {
    name: "verbose",
    expected: "`true` or `false`",
};

/// Reads three settings of a text by name and type.
#[test]
fn settings() {
    check(TABLE, "attr_settings", |text| {
        value_or_error(read(Global, text, 4), |attrs| {
            set(attrs.string(Global, NAME), attrs.missing_error(NAME))
                + &set(attrs.number::<u16>(Global, PORT), attrs.missing_error(PORT))
                + &set(attrs.bool(VERBOSE), attrs.missing_error(VERBOSE))
        })
    });
}

/// Shows the value of a required setting, or the error.
fn required<T: Display>(value: Result<T, SettingError>) -> String {
    match value {
        Ok(value) => format!("{value}\n"),
        Err(error) => format!("{} {error}\n", range(error.span())),
    }
}

#[test]
fn required_settings() {
    check(TABLE, "attr_settings", |text| {
        value_or_error(read(Global, text, 4), |attrs| {
            required(attrs.required_string(Global, NAME))
                + &required(attrs.required_number::<u16>(Global, PORT))
                + &required(attrs.required_bool(VERBOSE))
        })
    });
}

/// Reads a `bool` setting with the default `true`, and then with the default `false`.
#[test]
fn bool_or() {
    check(TABLE, "attr_truth_or", |text| {
        value_or_error(read(Global, text, 4), |attrs| {
            required(attrs.bool_or(VERBOSE, true)) + &required(attrs.bool_or(VERBOSE, false))
        })
    });
}

/// Reads an integer of 16 bits: as a required setting, and then with the default 80.
#[test]
fn unsigned() {
    check(TABLE, "attr_unsigned", |text| {
        value_or_error(read(Global, text, 4), |attrs| {
            required(attrs.required_unsigned(PORT, 65535))
                + &required(attrs.unsigned_or(PORT, 65535, 80))
        })
    });
}

/// Shows the number of attributes.
fn count(attrs: &Attrs) -> String {
    format!("{}\n", attrs.entries().len())
}

/// Shows the number of attributes in the value of a string literal, or the error message.
#[test]
fn inside() {
    check(TABLE, "attr_inside", |text| {
        let literal = LitStr::new(Global, text, HERE).unwrap();
        match literal.parse::<Attrs, Global>(Global) {
            Ok(attrs) => count(&attrs),
            Err(error) => Rejection(&error).to_string(),
        }
    });
}

/// Reads the value of each name. A row's text has the names, with commas between them, then U+001F, then attributes.
#[test]
fn values() {
    check(TABLE, "attr_values", |row| {
        let (names, text) = row.split_once('\u{1f}').unwrap();
        value_or_error(read(Global, text, 4), |attrs| {
            let values = names.split(',').map(|name| attrs.get(name));
            values
                .map(|it| it.map_or("none\n".to_owned(), line))
                .collect()
        })
    });
}

/// Shows the number of attributes in a text that has as many as the row says, and the error for the same text with the first name
/// repeated at its end.
#[test]
fn many() {
    check(TABLE, "attr_many", |count_of| {
        let all = 0..count_of.parse::<usize>().unwrap();
        let text: String = all.map(|at| format!("a{at}={at},")).collect();
        value_or_error(read(Global, &text, 0), count)
            + &value_or_error(read(Global, &(text + "a0=1"), 0), count)
    });
}
