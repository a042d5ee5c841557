//! Reads a server's settings from a file with lines `NAME = LITERAL`. The names are `host`, `port` and `verbose`:
//! `cargo run --example config FILE`

use navyspindle::{Key, LineIndex, SettingError, Settings};
use std::error::Error;
use std::process::ExitCode;
use std::{env, fs};

const HOST: Key = Key::new("host", "a string");
const PORT: Key = Key::new("port", "an integer from 0 to 65535");
const VERBOSE: Key = Key::new("verbose", "true or false");

/// The server's settings. This example only prints them, with `Debug`.
#[allow(dead_code)]
#[derive(Debug)]
struct Config {
    host: String,
    port: u16,
    verbose: bool,
}

/// Reads the settings of a text. The setting `host` is required.
fn read(text: &str) -> Result<Config, SettingError> {
    let settings = Settings::read_config(text)?;
    settings.check(&[HOST, PORT, VERBOSE])?;
    let host = settings.string(HOST)?;
    Ok(Config {
        host: host
            .ok_or_else(|| settings.missing_error(HOST))?
            .into_owned(),
        port: settings.number(PORT)?.unwrap_or(8080),
        verbose: settings.bool(VERBOSE)?.unwrap_or(false),
    })
}

/// Reads the settings of the file that the command line names.
fn config() -> Result<Config, Box<dyn Error>> {
    let name = env::args().nth(1).ok_or("usage: config FILE")?;
    let text = fs::read_to_string(&name).map_err(|error| format!("{name}: {error}"))?;
    read(&text).map_err(|error| {
        let place = LineIndex::new(&text).line_column(error.piece().start);
        let help = error
            .help()
            .map_or(String::new(), |help| format!(": {help}"));
        format!("{name}:{place}: {}{help}", error.kind()).into()
    })
}

fn main() -> ExitCode {
    match config() {
        Ok(config) => println!("{config:?}"),
        Err(error) => {
            eprintln!("{error}");
            return ExitCode::FAILURE;
        }
    }
    ExitCode::SUCCESS
}
