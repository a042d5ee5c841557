//! Macro calls with errors. After `//~` are the errors that rustc reports at a line: the column and the message of each. A line without a
//! comment has no errors.

use navyspindle_macros::{
    again, checked, checked_digits, checked_settings, checked_text, counted, hex_bytes, strings,
    sum, Described,
};

// Several errors of one call, as items, a statement, an expression, a type and a pattern.
strings!(1, "a", 'b'); //~ 10: expected string literal, found integer literal //~ 18: expected string literal, found character literal

fn statement() {
    strings! { 1, true, -2.5 } //~ 16: expected string literal, found integer literal //~ 19: expected string literal, found boolean literal //~ 25: expected string literal, found floating point literal
}

fn expression() -> usize {
    let found = 1 + strings!(b"a", c"b"); //~ 30: expected string literal, found byte string literal //~ 36: expected string literal, found C string literal
    found
}

fn of_type(_: strings!(1, 2)) {} //~ 24: expected string literal, found integer literal //~ 27: expected string literal, found integer literal

fn pattern(number: u8) {
    match number {
        strings!('a', 2) => {} //~ 18: expected string literal, found character literal //~ 23: expected string literal, found integer literal
    }
}

// One error: of a literal.
fn literals() {
    let _ = sum!(1, a); //~ 21: expected integer literal
    let _ = sum!(1 2); //~ 20: expected `,`
    let _ = sum!(-"a"); //~ 18: expected a number after the minus
    let _ = sum!(1, -); //~ 21: expected integer literal
    let _ = sum!(340282366920938463463374607431768211456); //~ 18: integer above 128 bits
    let _ = sum!(170141183460469231731687303715884105728); //~ 18: number too large to fit in target type
    let _ = again!(); //~ 13: unexpected end of input, expected literal
    let _ = hex_bytes!("0"); //~ 24: expected pairs of hexadecimal digits
}

// One error, or an error for each unknown name: of the entries of an attribute.
fn entries() {
    let _ = checked!(nme = "a", siz = 1); //~ 22: unknown name `nme`: did you mean `name`? //~ 33: unknown name `siz`: did you mean `size`?
    let _ = checked!(size = 1); //~ 13: missing `name`
    let _ = checked!(name = "a", name = "b"); //~ 34: repeated name `name`
    let _ = checked!(name = "a"x); //~ 29: unexpected suffix `x`
    let _ = checked!(name = 1); //~ 29: expected string literal, found integer literal
    let _ = checked!(name); //~ 22: expected a value: `name = ..`
    let _ = checked!(name = "a", inner); //~ 34: expected a list: `inner(..)`
    let _ = checked!(name = "a", verbose(1)); //~ 41: unexpected list
    let _ = checked!(name = "a", size = 256); //~ 41: number out of range for u8
    let _ = checked!(name = "a", size = 1u16); //~ 41: suffix that isn't u8
    let _ = checked!(name = "a", size = -1); //~ 41: minus before a number of u8
    let _ = checked!(name: "a"); //~ 26: expected `=`
    let _ = checked!(name = ); //~ 27: unexpected end of input, expected a value
    let _ = checked!("a"); //~ 22: expected identifier
    let _ = checked!(name = concat!("a")); //~ 29: expected string literal
    let _ = checked!(name = "a" "b"); //~ 33: expected `,`
    let _ = checked!(name("a")); //~ 26: expected a value
    let _ = checked!(name = "a", inner = 1); //~ 42: expected a list
    let _ = checked!(name = "a", verbose = 1); //~ 44: unexpected value: write `verbose` alone
    let _ = checked!(max = x < y, z > w); //~ 37: expected `,`: before `<` with a comma inside, write `::`
    let _ = checked!(max = I<A, B = C>::D); //~ 29: ambiguous `<`: write `::<`, or a comparison in parentheses
}

// One error: of a list of literals, or of a part of a string.
fn located() {
    let _ = checked_digits!(a); //~ 29: expected a list: `a(..)`
    let _ = checked_digits!(a = 1); //~ 33: expected an array: `[..]`
    let _ = checked_digits!(a = [1 2]); //~ 36: expected `,`
    let _ = checked_digits!(a(1, -10)); //~ 34: expected a digit
    let _ = checked_digits!(a(1) b); //~ 34: unexpected token
    let _ = checked_text!("\u{e9}{b}"); //~ 27: unexpected brace\n       "\u{e9}{b}"\n              ^
}

// Errors of several attributes of an item.
const COUNT: usize = counted! {
    #[opt(a b)] //~ 13: expected `,`
    #[opt] //~ 7: expected a list: `opt(..)`
    struct A;
};
const OTHER: usize = counted!(#(a) struct A;); //~ 32: expected `[`
const PATHS: usize = counted!(#[opt(a::b)] #[opt(a, a::b = 1)] struct A;); //~ 53: repeated name `a::b`

#[derive(Described)]
#[described(level = 1)] //~ 3: missing `text`
struct Level;

// One error: of settings.
fn settings() {
    let _ = checked_settings!(name = "a" size = 1); //~ 42: expected `,`
    let _ = checked_settings!(name = "a", size = 256); //~ 50: size: expected an integer from 0 to 255: number out of range for u8
    let _ = checked_settings!(nme = "a"); //~ 31: unknown name `nme`
}

fn main() {}
