"""Texts with which whole sources are tested: random sequences of pieces (soups), and texts that are designed to be bad."""
import random

# Pieces that rustc's lexer accepts too, if the neighbouring text allows it.
WORDS = ['a', 'fn', 'b', 'c', 'r', 'br', 'cr', 'rb', 'e5', 'x1', '_', '__a', 'true', 'false', 'truer', 'u8', '\u00e9', '\u03b1\u03b2', 'a\u0301', 'e\u00b7', 'r#a', 'r#true', 'r#_a', 'r#\u00e9',
         'let', 'macro_rules', 'self', 'doc', 'E', 'f64', 'xor']
LIFETIMES = ["'a", "'static", "'_", "'true", "'r", "'b", "'\u00e9", "'r#a", "'r#b\u00b7", "'abc", "'u8"]
NUMBERS = ['0', '1', '007', '1_000', '1__', '0xFF', '0xff_u8', '0b1_0', '0o17', '0xe', '0b1u8', '1u8', '1.5', '1.', '1.0', '1e5', '1E-5', '1e+5_0', '1.5e5f64', '1e_5', '2.e', '1.0.0', '1.x', '1._a', '1..2',
           '1...', '0..=9', '1f32', '9' * 40, '0x' + 'F' * 33, '1_e5', '1.5_f32', '1e5\u00e9', '1\u00e9', '0xE+1', '1.5.e', '0.0', '3.14', '1e1.5', '1e-1-1', '0o1.a']
QUOTED = ["'x'", "'\\''", "'\"'", "'\\\\'", "'\\n'", "'\\u{41}'", "'\u00e9'", "'\U0001f600'", "'a'u8", "'('", "b'a'", "b'\\xFF'", "b'\\''", '"a"', '""', '"\\""', '"\\\\"', '"//"', '"/*"', '"a\nb"', '"\\\n b"', '"\\u{1F600}"',
          'b"a\\xFF"', 'b""', 'c"a"', 'c"\\xFF\u00e9"', '"\u20ac"', '"a"u8', '"a"_x', 'r"a"', 'r"\\"', 'r#"a"b"#', 'r##"a"#"##', 'r#""#', 'br"a"', 'br##"x"#"##', 'cr"a"', 'cr#"a"b"#', 'r"a\nb"', 'r#"//"#u8', '"it\'s"', "'/'"]
MARKS = ['+', '-', '*', '/', '%', '&', '|', '=', '==', '=>', '->', '::', ':', ';', ',', '.', '..', '..=', '<', '>', '<<=', '!', '?', '#', '$', '@', '^', '~', '#!', '&&', '%=', '- 1', '-1', '#[a]', '#![a]', '#[doc = "x"]']
DOCS = ['/// a "b"\n', '///\n', '//! c\n', "/// 'a\n", '/** d */', '/*! e "f */', '/**\n * g\n */', '/// r#"\n', '//!\n', '/** /* n */ */', '/*!*/', '/// \u00e9\n']
TRIVIA = [' ', ' ', ' ', '\n', '\n', '\t', '\r\n', '\r\n', '// a\n', '//\n', '//// a "\n', '/* b */', '/**/', '/***/', '/*** c */', '/* /* */ */', '/* " */', "// don't\n", '/*//*/', '\u200e', '\u2028', '\u0085', '\v', '\f',
          '/*/**/*/', '// a\r\n', '///// x\n', '/*\r\n*/', '\r', '/* /** n */ */']
# Pieces at which rustc's lexer or ours may end early, or lex differently.
STRAYS = ['\u2261', '\u2192', '\u00d7', '\\', '`', '\u00b7', '\U0001f600', '\u0301', '\u00b2', '\u0661', '\0', '\x7f', '\ufeff', '\u00a0', '\u3000', '\u200b', '\x1b', '\u30fb', '\u2e2f', '\u2118', '\u212e']
OPEN = ['"', "'", "b'", 'b"', 'c"', 'r"', 'r#"', 'br##"', "'\\", '"\\', '/*', '/**', '/*!', "''", "'ab'", "'1", "'r#a'", "'a ", 'r#', 'br#', 'r##', "'\\x", "'''", "b''", "'\\u{1", "'\\'", '*/', '"#', "'\n", "'a'b'", "b'\\''"]
ODD = ['foo"a"', "foo'a'", 'foo#a', "'foo#a", '#"a"#', '##', '#"', 'r##a', '0x1.5', '0b1.5', '0b12', '0x', '0b', '1e+', '1e', '1ex', '1.e+', '1.5e', '1e_', '1e+_', '1e_-5', "'ab'", "'1a", "'\\q'", '"\\q"', '"\\u{110000}"',
       'b"\u00e9"', "b'\u00e9'", '"a"_', '1_u8', '0o8', "'\t'", "'\n'", '"a\rb"', '/// a\rb\n', '/** a\rb */', 'r"a\rb"', "'a\u0301'", 'rb"a"', "c'a'", 'k#a', 'true"a"', "false'a'", 'r#self', 'r#_', "'r#_", "'r#self",
       '---', '1.\u00e9', '0x\u00e9', 'r' + '#' * 256 + '"a"' + '#' * 256, 'f"a"', "1'a'", '1"a"', '"a""b"', "'a''b'", '"a"\'b', "'a\"b\"", '1.5.5', '1.a"b"', "'a'b", '"a\r\nb"', 'r"a\r\nb"', '"\\\r\n  a"']
FRONTS = ['\ufeff', '#!/bin/sh\n', '#! a\r\n', '#!\n', '\ufeff#!/x "\n', '#![a]\n', '#! [a]\n', '#!/* x */[a]\n', '#!// x\n[a]\n', '#!// x\n', '#!/* x\n', '#!/// x\n[a]\n', '#! \n [a]\n', '#!', '#!\u00a0[a]\n', '#!\ufeff[a]\n',
          '\ufeff\ufeff', ' #!/x\n', '\ufeff#![a]\n', '#!"\n', "#!'\n", '#!/* /* */\n', '#!a\rb\n', '#!/**/[a]\n', '#!/***/[a]\n', '#!/** x */[a]\n', '\n#!/x\n', '#', '#!!\n', '#!\u200e[a]\n', '#!#!\n']
GROUPS = ['()', '[]', '{}']

SOUND = [WORDS] * 5 + [LIFETIMES] * 2 + [NUMBERS] * 3 + [QUOTED] * 4 + [MARKS] * 4 + [DOCS]
WILD = SOUND + [STRAYS, OPEN, OPEN, ODD, ODD, TRIVIA, TRIVIA]
ALL = [piece for pieces in WILD for piece in pieces]


def sound(source, depth=0):
    """Returns pieces that rustc mostly accepts, with gaps between most of them, and with closed groups."""
    out = []
    for _ in range(source.choice((1, 2, 3, 5, 8))):
        near = source.random()
        if near < .1 and depth < 3:
            opener, closer = source.choice(GROUPS)
            out.append(opener + sound(source, depth + 1) + closer)
        elif near < .13:
            out.append(source.choice(ODD))
        else:
            out.append(source.choice(source.choice(SOUND)))
        out.append(source.choice(TRIVIA) if source.random() < .7 else '')
    return ''.join(out)


def wild(source):
    """Returns any pieces in any order."""
    return ''.join(source.choice(source.choice(WILD)) + source.choice(('', '', '', ' ', '\n')) for _ in range(source.choice((1, 2, 3, 4, 6, 9))))


def spliced(source):
    """Returns a valid soup with one character removed, doubled, or replaced by parts of pieces."""
    text = sound(source)
    for _ in range(source.choice((1, 1, 2, 3))):
        at = source.randint(0, len(text))
        end = min(len(text), at + source.choice((0, 0, 1, 1, 2, 4)))
        piece = source.choice(ALL)
        cut = source.randint(0, len(piece))
        text = text[:at] + source.choice(('', text[at:end] * 2, piece[:cut], piece[cut:], piece)) + text[end:]
    return text


def short(source):
    """Returns a random text of 1 to 14 characters, most of which begin, end or escape literals and comments."""
    return ''.join(source.choice('\'\'\'"""\\\\rrbc###//**!!\n\n \r ax01.eE_-+\u00e9\u2261[]{}()') for _ in range(source.randint(1, 14)))


MAKERS = [sound] * 4 + [spliced] * 3 + [wild] * 2 + [short]


def soups(seed, count):
    source = random.Random(seed)
    for _ in range(count):
        front = source.choice(FRONTS) if source.random() < .1 else ''
        yield front + source.choice(MAKERS)(source)


def long_rows(size):
    """Returns long texts: one piece repeated, and pieces that open something at the start or at the end of a long text."""
    for piece in ["'", 'r#', '///', '/*', '//', '"', '#', 'r', "b'", "'a", "'a'", "'\\", '"\\', 'r"', 'br#"', '\\', '/', '*/', '/**/', '/***/', '/*!', '//!\n', '1.', '1e', '0x', '1_', '_', '-', '\r', '\r\n', ' ',
                  '\ufeff', '\u2261', '\u00e9', '\U0001f600', '#!', '(', '{[', ')', 'true ', 'r#a', "'r#", '/*/', '0', '1..', 'cr##"', '\0', '/// a\n', 'a"', '/* */ ']:
        yield 'a row of %r' % piece, piece * (size // len(piece))
    full = 'a' * size
    for opener, closer in [('"', ''), ('"', '"'), ('r"', ''), ('r#"', '"'), ("'", ''), ("'", "'"), ("b'", ''), ("'\\", ''), ("'\\", "'"), ('/*', ''), ('/*', '*/'), ('//', ''), ('///', ''), ('/**', '*/'), ('r#', ''), ('0x', ''), ('1', ''),
                           ('#!', ''), ('#![', ''), ("'r#", ''), ('r#"', '"#'), ('#!\n', ''), ('#! \n', '"')]:
        yield '%r, many letters, %r' % (opener, closer), opener + full + closer
    yield 'many hashes, never a quote', 'r' + '#' * size
    yield 'many hashes, and an end that lacks one', 'r' + '#' * (size // 2) + '"' + '#' * (size // 2) + '"' + '#' * (size // 2 - 1)
    yield 'many hashes, closed', 'r' + '#' * (size // 2) + '""' + '#' * (size // 2) + ' 1'
    yield 'blocks in blocks, closed', '/*' * (size // 4) + '*/' * (size // 4) + '1'
    yield 'blocks in blocks, one left open', '/*' * (size // 4) + '*/' * (size // 4 - 1) + '1'
    yield 'a quote after much', '1 ' * (size // 2) + '"'
    yield 'an interpreter and an open comment', '#!' + '/*' * (size // 2)
    yield 'an interpreter and many comments', '#!' + '/**/' * (size // 4) + '[a] 1'
    yield 'an attribute far down', '#!' + ' \n' * (size // 2) + '[a] 1'


SMALL = [
    '#!/bin/sh -x\r\nfn f<\'a, \'r#b>(x: &\'a str) -> r#fn {\r\n  /// a "doc"\r\n  g("a\\n\\u{e9}\\\r\n  b", r#"c"d"#, b\'\\xFF\', \'\u20ac\', 0xFF_u8, - 1.5e-3f32, true, c"\u00e9")\r\n}\r\n',
    '\ufeff// \u00e9\n/* /* " */ \' */ static A: [u8; 3] = *br##"a"#b"##; //! x\nlet \u00e9 = \'\\\'\' == \'"\' && 1..2 != 0..=9; /** "x" */ m!(\u2261 \u2192 \\ ` 1.x 2.0.0 \'a\'u8 \'\\u{1F600}\');\n',
    '#![allow(a)] #!/* b */[c = "d"] macro_rules! m { ($a:tt $($b:literal),*) => { concat!("x", $a, 1e5, 1.e, 0b1_, 0o7, \'_, \'\'\', false) } }\n/*! e */ r"f" "g" \'h\' i\'j k"l" m#n #"o"# r##p',
]


def cuts():
    """Returns the small sources, cut off at each byte."""
    for text in SMALL:
        data = text.encode()
        for at in range(len(data) + 1):
            yield data[:at]
            yield data[at:]
