//! Generates texts: literals, invalid literals, numbers, lists, and other characters.

/// A generator of pseudorandom numbers. The field is its state.
pub struct Random(u64);

impl Random {
    pub fn new(seed: u64) -> Random {
        Random(0x9E37_79B9_7F4A_7C15 ^ seed)
    }

    fn next(&mut self) -> u64 {
        self.0 ^= self.0 << 13;
        self.0 ^= self.0 >> 7;
        self.0 ^= self.0 << 17;
        self.0.wrapping_mul(0x2545_F491_4F6C_DD1D)
    }

    pub fn below(&mut self, bound: usize) -> usize {
        ((self.next() >> 33) % bound as u64) as usize
    }

    pub fn of<T: Copy>(&mut self, all: &[T]) -> T {
        all[self.below(all.len())]
    }
}

const PIECES: &[&str] = &[
    "\"",
    "'",
    "\\",
    "#",
    "r",
    "b",
    "c",
    "br",
    "cr",
    "\n",
    "\r",
    "\r\n",
    "\t",
    " ",
    "\0",
    "\\x41",
    "\\xff",
    "\\x7F",
    "\\x80",
    "\\u{41}",
    "\\u{1F600}",
    "\\u{D800}",
    "\\u{110000}",
    "\\u{0}",
    "\\u{00_0041}",
    "\\u{}",
    "\\u",
    "\\x",
    "\\x4",
    "\\0",
    "\\n",
    "\\q",
    "\\\n  ",
    "\\\r\n\t",
    "a",
    "z",
    "_",
    "é",
    "ß",
    "語",
    "😀",
    "\u{301}",
    "\u{2028}",
    "\u{200e}",
    "\u{85}",
    "\u{a0}",
    "\u{3000}",
    "\u{feff}",
    "\u{b7}",
    "ª",
    "0",
    "1",
    "9",
    "0x",
    "0b",
    "0o",
    "0X",
    "ff",
    "F_",
    "__",
    ".",
    "..",
    "e",
    "E",
    "e5",
    "e+",
    "E-3",
    "e_1",
    "-",
    "+",
    "u8",
    "f32",
    "i128",
    "340282366920938463463374607431768211455",
    "340282366920938463463374607431768211456",
    "0xffffffffffffffffffffffffffffffff",
    "18446744073709551616",
    "true",
    "false",
    "//",
    "///",
    "////",
    "//!",
    "/*",
    "*/",
    "/**",
    "/***",
    "/*!",
    "/**/",
    "(",
    ")",
    "[",
    "]",
    "{",
    "}",
    ",",
    ";",
    "=",
    "!",
    "#!",
    "#![a]",
    "'a",
    "'static",
    "r#a",
    "r#",
    "r#\"",
    "\"#",
    "b'",
    "b\"",
    "c\"",
    "truex",
    "x",
    "\u{7f}",
    "\u{80}",
    "ident ",
    "::",
    "->",
    "&",
    "$",
    "@",
    "~",
    "`",
    "?",
    "|",
    "<",
    ">",
    "*",
    "/",
    "%",
    "^",
];

/// Generates a character or an escape for the text between the quotes of a literal.
fn unit(r: &mut Random) -> String {
    match r.below(12) {
        0..=4 => r
            .of(&[
                "a", "b", " ", "0", "_", "k", "'", "é", "語", "😀", ".", "~", "\u{7f}", "{", "//",
            ])
            .to_owned(),
        5 => format!("\\x{:02x}", r.below(256)),
        6 => format!("\\u{{{:x}}}", r.below(0x12_0000)),
        7 => r
            .of(&["\\n", "\\r", "\\t", "\\0", "\\\\", "\\'", "\\\""])
            .to_owned(),
        8 => r
            .of(&["\\\n  ", "\\\r\n", "\n", "\r\n", "\r", "\t"])
            .to_owned(),
        9 => "abcdefghijklmnopqrstuvwxyz0123456789"[..r.below(36)].repeat(1 + r.below(4)),
        10 => r.of(PIECES).to_owned(),
        _ => char::from_u32(r.below(0x3000) as u32)
            .unwrap_or('x')
            .to_string(),
    }
}

fn repeated(r: &mut Random, count: usize, piece: impl Fn(&mut Random) -> String) -> String {
    (0..count).map(|_| piece(r)).collect()
}

fn number(r: &mut Random) -> String {
    let sign = r.of(&["-", "", "", ""]);
    let (prefix, digits) = r.of(&[
        ("0x", "0123456789abcdefABCDEF_"),
        ("0b", "01_"),
        ("0o", "01234567_"),
        ("0b", "0123_"),
        ("", "0123456789_"),
        ("", "0123456789_"),
        ("", "0123456789"),
        ("", "0123456789"),
    ]);
    let count = match r.below(6) {
        0 => 30 + r.below(15),
        1 => 60 + r.below(80),
        _ => 1 + r.below(8),
    };
    let digit = |r: &mut Random| char::from(r.of(digits.as_bytes())).to_string();
    let mut text = format!("{sign}{prefix}{}", repeated(r, count, digit));
    if r.below(3) == 0 {
        let count = r.below(5);
        text += ".";
        text += &repeated(r, count, |r| r.of(&["0", "1", "9", "_"]).to_owned());
    }
    if r.below(3) == 0 {
        let count = r.below(4);
        text += r.of(&["e", "E"]);
        text += r.of(&["", "+", "-", "_", "__"]);
        text += &repeated(r, count, |r| r.of(&["0", "7", "_"]).to_owned());
    }
    if r.below(3) == 0 {
        let suffixes = [
            "u8", "i128", "f32", "f64", "usize", "é", "_x", "e", "E1", "x", "ª", "\u{301}",
            "a\u{301}", "語b",
        ];
        text += r.of(&suffixes);
    }
    text
}

fn cooked(r: &mut Random) -> String {
    let (opener, count) = (r.of(&["\"", "b\"", "c\""]), r.below(12));
    let suffix = r.of(&[
        "", "", "", "", "", "", "", "", "", "", "", "", "", "", "", "x", "_", "é", "u8", "1",
    ]);
    format!("{opener}{}\"{suffix}", repeated(r, count, unit))
}

fn raw(r: &mut Random) -> String {
    let (opener, hashes, count) = (r.of(&["r", "br", "cr"]), "#".repeat(r.below(4)), r.below(6));
    let inside = repeated(r, count, |r| {
        let unit = unit(r);
        match r.below(6) {
            0 => format!("{unit}\"{}", &hashes[..r.below(hashes.len() + 1)]),
            _ => unit,
        }
    });
    format!("{opener}{hashes}\"{inside}\"{hashes}")
}

fn literal(r: &mut Random) -> String {
    match r.below(10) {
        0..=2 => number(r),
        3..=5 => cooked(r),
        6 => raw(r),
        7 | 8 => {
            let (opener, suffix) = (r.of(&["'", "b'"]), r.of(&["", "", "", "", "q"]));
            format!("{opener}{}'{suffix}", unit(r))
        }
        _ => r.of(&["true", "false", "True", "tru", "fals"]).to_owned(),
    }
}

/// Changes a text at one to three random positions.
pub fn broken(r: &mut Random, text: &str) -> String {
    let mut chars: Vec<char> = text.chars().collect();
    for _ in 0..1 + r.below(3) {
        let at = r.below(chars.len() + 1);
        match r.below(3) {
            0 if at < chars.len() => drop(chars.remove(at)),
            1 => drop(chars.splice(at..at, r.of(PIECES).chars())),
            _ if at < chars.len() => {
                chars[at] = r.of(&[
                    '"', '\'', '\\', '#', 'x', '0', '_', 'é', '{', '}', '\n', '\r', '-', 'e', '.',
                ]);
            }
            _ => {}
        }
    }
    chars.into_iter().collect()
}

fn soup(r: &mut Random) -> String {
    let count = r.below(14);
    repeated(r, count, |r| r.of(PIECES).to_owned())
}

/// Generates a text with characters of all lengths in UTF-8.
fn wild(r: &mut Random) -> String {
    let count = r.below(20);
    repeated(r, count, |r| {
        let bound = r.of(&[128, 0x800, 0x1_0000, 0x11_0000]);
        char::from_u32(r.below(bound) as u32)
            .unwrap_or('\'')
            .to_string()
    })
}

fn list(r: &mut Random) -> String {
    let count = 1 + r.below(6);
    repeated(r, count, |r| {
        literal(r) + r.of(&[" ", "\n", "/* a */", " // b\n", "", ", ", "- ", " -/*x*/"])
    })
}

/// Generates the text with number `n`. Consecutive numbers belong to different families of texts.
pub fn nth(r: &mut Random, n: usize) -> String {
    match n % 8 {
        0 | 7 => literal(r),
        1 => {
            let literal = literal(r);
            broken(r, &literal)
        }
        2 => soup(r),
        3 => wild(r),
        4 => number(r),
        5 => list(r),
        _ => {
            let list = list(r);
            broken(r, &list)
        }
    }
}

/// Returns texts of one literal each, with the character `c` at each position where the class of a character matters.
pub fn alone(c: char) -> [String; 6] {
    [
        format!("{c}"),
        format!("1{c}"),
        format!("1x{c}"),
        format!("\"{c}\""),
        format!("'{c}'"),
        format!("b'{c}'"),
    ]
}

/// Returns texts of lists, with the character `c` at each position where the class of a character matters.
pub fn among(c: char) -> [String; 6] {
    [
        format!("{c}"),
        format!("a{c}1 \"\" '{c}"),
        format!("{c}x 1"),
        format!("r#{c} 1"),
        format!("1.{c}2"),
        format!("\"\"{c} "),
    ]
}
