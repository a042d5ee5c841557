// Rendered from crates/rl_flaws/src/before.rt by tools/render, which erases contracts: change that file, and render again.
//! Rules about the text directly before a literal: a minus, and prefixes that an edition of Rust reserves.

#[derive(Clone, Copy, PartialEq, Eq, Debug)]
pub enum Edition {
    E2015,
    E2018,
    E2021,
    E2024,
}

#[derive(Clone, Copy)]
enum Part {
    Inline,
    Passed,
    Hash,
    Word,
}

#[inline]
fn has_part(part: Part, byte: u8) -> bool {
    match part {
        Part::Inline => matches!(byte, b'\t' | 11 | 12 | b'\r' | b' ' | b'('),
        Part::Passed => matches!(byte, b'\t'..=b'\r' | b' ' | b'('),
        Part::Hash => byte == b'#',
        Part::Word => byte.is_ascii_alphanumeric() || byte == b'_',
    }
}

#[inline]
fn trimmed(bytes: &[u8], part: Part) -> &[u8] {
    let mut left = bytes;
    while let [rest @ .., byte] = left {
        if !has_part(part, *byte) {
            return left;
        }
        left = rest;
    }
    left
}

#[inline]
fn holds_comment(bytes: &[u8]) -> bool {
    let mut left = bytes;
    while let [rest @ .., byte] = left {
        if *byte == b'\n' {
            return false;
        }
        if *byte == b'/' && matches!(rest, [.., b'/']) {
            return true;
        }
        left = rest;
    }
    false
}

#[inline]
fn seen_before(before: &str) -> Option<&[u8]> {
    let bytes = before.as_bytes();
    let inline = trimmed(bytes, Part::Inline);
    let all = trimmed(bytes, Part::Passed);
    if matches!(all, [.., b'/' | 128..]) || matches!(inline, [.., b'\n']) && holds_comment(all) {
        return None;
    }
    Some(all)
}

#[inline]
pub fn may_be_negated(before: &str) -> bool {
    match seen_before(before) {
        Some(front) => matches!(front, [.., b'-']),
        None => true,
    }
}

#[inline]
fn is_after_word(bytes: &[u8]) -> bool {
    let front = trimmed(bytes, Part::Word);
    let word = &bytes[front.len()..];
    !matches!(word, [] | [b'0'..=b'9', ..]) && !matches!(front, [.., b'"' | b'\'' | b'#' | 128..])
}

#[inline]
fn is_after_hashes(bytes: &[u8], front: &[u8]) -> bool {
    matches!(bytes, [.., b'#']) && !matches!(front, [.., b'"'])
}

#[inline]
pub fn first_reserving_edition(before: &str, literal: &str) -> Option<Edition> {
    let front = trimmed(before.as_bytes(), Part::Hash);
    match literal.as_bytes() {
        [b'"' | b'\'', ..] if is_after_word(front) => Some(Edition::E2021),
        [b'"', ..] if is_after_hashes(before.as_bytes(), front) => Some(Edition::E2024),
        _ => None,
    }
}

impl Edition {
    #[inline]
    pub fn year(self) -> u16 {
        match self {
            Edition::E2015 => 2015,
            Edition::E2018 => 2018,
            Edition::E2021 => 2021,
            Edition::E2024 => 2024,
        }
    }

    #[inline]
    pub fn reserves(self, before: &str, literal: &str) -> bool {
        match first_reserving_edition(before, literal) {
            Some(from) => from.year() <= self.year(),
            None => false,
        }
    }
}
