//! Rewrites literals or whole sources in styles that are encoded as letters (`rust/tests/letters`).
//!
//! `restyle` reads rows `STYLE FRONT TEXT` of `oracle/style_rows.py`, one in each line. For each row it prints the rewritten text in
//! hexadecimal, with FRONT as the text before it: `=` if it is unchanged, `!` if it isn't a literal, `?` if `is_token` disagrees,
//! `~` if rewriting the result changes it again.
//!
//! `restyle STYLE` reads sources, each after its length (four bytes, the lowest first), and prints the rewritten ones in
//! hexadecimal, one in each line.

#[path = "../../../rust/tests/letters/mod.rs"]
mod letters;
#[path = "../../texts.rs"]
mod texts;

use letters::{decoded, style_of};
use navyspindle::{is_token, rewrite, rewrite_in_context, rewrite_source, ParseError, Style};
use std::borrow::Cow;
use std::io;

fn written<'t>(front: &str, text: &'t str, style: Style) -> Result<Cow<'t, str>, ParseError> {
    match front {
        "" => rewrite(text, style),
        _ => rewrite_in_context(front, text, style),
    }
}

/// Returns the output line for a row.
fn row(front: &str, text: &str, style: Style) -> String {
    let answer = written(front, text, style);
    if answer.is_ok() != is_token(text) {
        return "?".to_owned();
    }
    match answer {
        Err(_) => "!".to_owned(),
        Ok(Cow::Borrowed(_)) => "=".to_owned(),
        Ok(Cow::Owned(new)) if !matches!(written(front, &new, style), Ok(Cow::Borrowed(_))) => "~".to_owned(),
        Ok(Cow::Owned(new)) => texts::hex(&new),
    }
}

fn main() -> io::Result<()> {
    if let Some(letters) = std::env::args().nth(1) {
        return texts::print(|text| {
            let new = rewrite_source(text, style_of(&letters)).apply();
            texts::hex(new.as_deref().unwrap_or(text)) + "\n"
        });
    }
    for line in io::stdin().lines() {
        let line = line?;
        let [letters, front, text] = line.split(' ').collect::<Vec<_>>()[..] else { panic!("three words, not {line}") };
        println!("{}", row(&decoded(front), &decoded(text), style_of(letters)));
    }
    Ok(())
}
