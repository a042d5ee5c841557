//! Parses each argument as a literal, and prints the literal or the reason why it isn't one:
//! `cargo run --example reason 0x1F '"a\qb"' 0b102`

use navyspindle::Lit;
use std::env;

fn main() {
    for text in env::args().skip(1) {
        match Lit::parse(&text) {
            Ok(Lit::Int(literal)) => match literal.value::<u64>() {
                Ok(number) => println!("{number}"),
                Err(error) => println!("{text}: {error}"),
            },
            Ok(literal) => println!("{}", literal.kind()),
            Err(error) => println!("{text}: {error}"),
        }
    }
}
