//! Macros that the translated core uses for parts of a text. A slice tests whether a character begins at its ends.
//!
//! `after_first!(text)` is the text after its first character, which must be ASCII. A step of `chars` saves the four instructions of
//! that test, but in unoptimized builds it costs more than the slice. `split_at!(text, at)` is `text.split_at(at)`. In unoptimized
//! builds two slices cost less, and `get` less than an index. The last argument of both macros says whether the build is unoptimized.

macro_rules! after_first {
    ($text:ident) => {
        crate::slices::after_first!($text, cfg!(debug_assertions))
    };
    ($text:ident, $is_unoptimized:expr) => {
        if $is_unoptimized {
            $text.get(1..).unwrap()
        } else {
            let mut characters = $text.chars();
            characters.next();
            characters.as_str()
        }
    };
}
pub(crate) use after_first;

macro_rules! split_at {
    ($text:ident, $at:expr) => {
        crate::slices::split_at!($text, $at, cfg!(debug_assertions))
    };
    ($text:ident, $at:expr, $is_unoptimized:expr) => {
        match $at {
            at if !$is_unoptimized => $text.split_at(at),
            0 => ("", $text),
            at => ($text.get(..at).unwrap(), $text.get(at..).unwrap()),
        }
    };
}
pub(crate) use split_at;

#[cfg(test)]
mod tests {
    #[test]
    fn both_builds_have_the_same_parts() {
        for text in ["a", "ab", "a\u{e9}", "\0\u{20ac}b", "\u{7f}\u{1f600}"] {
            for is_unoptimized in [true, false] {
                assert_eq!(after_first!(text, is_unoptimized), &text[1..]);
                assert_eq!(split_at!(text, 0, is_unoptimized), ("", text));
                assert_eq!(split_at!(text, 1, is_unoptimized), text.split_at(1));
            }
        }
    }
}
