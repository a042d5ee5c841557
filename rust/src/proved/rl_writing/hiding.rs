// Rendered from crates/rl_writing/src/hiding.rt by tools/render, which erases contracts: change that file, and render again.
//! Tests for characters that aren't visible as they are: invisible, bidirectional and control characters.

#[inline]
pub fn is_invisible_or_bidi(c: char) -> bool {
    matches!(
        c,
        '\u{ad}'
            | '\u{34f}'
            | '\u{61c}'
            | '\u{115f}'..='\u{1160}'
            | '\u{17b4}'..='\u{17b5}'
            | '\u{180b}'..='\u{180f}'
            | '\u{200b}'..='\u{200f}'
            | '\u{2028}'..='\u{202e}'
            | '\u{2060}'..='\u{206f}'
            | '\u{3164}'
            | '\u{feff}'
            | '\u{ffa0}'
            | '\u{fff0}'..='\u{fffb}'
            | '\u{1bca0}'..='\u{1bca3}'
            | '\u{1d173}'..='\u{1d17a}'
            | '\u{e0000}'..='\u{e0fff}'
    )
}

#[inline]
pub fn is_control_invisible_or_bidi(c: char) -> bool {
    c.is_control() || is_invisible_or_bidi(c)
}
