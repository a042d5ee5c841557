//! Parses a valid and an invalid literal, and checks the value and the error: `cargo run --example parse`

use navyspindle::{Lit, LitInt, ParseError};

fn main() -> Result<(), ParseError> {
    let mask = LitInt::parse("0xFF_u8")?;
    assert_eq!(mask.value::<u8>(), Ok(255));

    let text = r#""C:\dir""#;
    let error = Lit::parse(text).unwrap_err();
    assert_eq!(error.to_string(), "unknown escape at byte 4");
    assert_eq!(error.range(), 4..5);
    assert_eq!(&text[error.piece()], r"\d");
    Ok(())
}
