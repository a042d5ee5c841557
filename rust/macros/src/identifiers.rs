//! The characters of identifiers, by rustc's own tables.

use proc_macro::{Ident, Span};
use std::panic;

/// Whether rustc takes the text for an identifier. `Ident::new` panics if it isn't one.
fn is_identifier(text: &str) -> bool {
    panic::catch_unwind(|| Ident::new(text, Span::call_site())).is_ok()
}

/// Returns the source of a list of numbers. The non-ASCII characters are divided into sequences of one class: 2 for characters that
/// begin identifiers, 1 for those that only continue them, and 0 for all others. A number is the first character of a sequence, times
/// four, plus its class.
pub fn sequences() -> String {
    let hook = panic::take_hook();
    panic::set_hook(Box::new(|_| {}));
    let (mut numbers, mut last) = (String::new(), 0);
    for c in '\u{80}'..=char::MAX {
        let continues = is_identifier(&format!("a{c}"));
        let class = u32::from(continues) + u32::from(continues && is_identifier(&c.to_string()));
        if class != last {
            numbers += &format!("{}, ", u32::from(c) << 2 | class);
            last = class;
        }
    }
    panic::set_hook(hook);
    format!("&[{numbers}]")
}
