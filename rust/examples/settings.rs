//! Reads a server's host and port from the command line as literals: `cargo run --example settings '"a\x2eb"' 0x1F90`

use navyspindle::Lit;
use std::env;
use std::error::Error;
use std::process::ExitCode;

/// Parses the argument `text` as a literal. `name` is the argument's name in the error message.
fn literal<'t>(name: &str, text: &'t str) -> Result<Lit<'t>, String> {
    Lit::parse(text).map_err(|error| format!("{name} {text}: {error}"))
}

fn settings(host: &str, port: &str) -> Result<(String, u16), Box<dyn Error>> {
    let Lit::Str(host) = literal("host", host)? else {
        return Err("the host has to be a string".into());
    };
    let Lit::Int(port) = literal("port", port)? else {
        return Err("the port has to be an integer".into());
    };
    let number = port.value();
    let number = number.map_err(|error| format!("port {port}: {error}"))?;
    Ok((host.value().into_owned(), number))
}

fn main() -> ExitCode {
    let args: Vec<String> = env::args().skip(1).collect();
    let found = match args.as_slice() {
        [host, port] => settings(host, port),
        _ => Err("usage: settings HOST PORT".into()),
    };
    match found {
        Ok((host, port)) => println!("{host}:{port}"),
        Err(error) => {
            eprintln!("{error}");
            return ExitCode::FAILURE;
        }
    }
    ExitCode::SUCCESS
}
