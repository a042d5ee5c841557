"""The texts on which literals, lists, settings and tokens are compared, in families, and the literals of files."""
import ast
import itertools
import random
import re
from pathlib import Path

import frame
from model.sources import cut_source

LIMIT = 2**128 - 1

# Characters that reach every branch of the parsers, with characters of two, three and four bytes, and U+00B7, which continues an
# identifier but can't begin one.
ALPHABET = list('"\'\\rbc#xou{}n019aeE_-+.\r\n\t\0') + ['\u00e9', '\u20ac', '\U0001f600', '\u00b7']
# Characters for mutations only, which are similar to those of the alphabet.
NEAR = ALPHABET + list(' \v\f2378fFgAXOBtz/*!;=~$@`,|') + ['\u0085', '\u00a0', '\u2028', '\u200e', '\ufeff', '\u0301', '\x7f', '\x01', '\x1b', '\u3042']

# The texts before and after each exhaustively generated middle.
FRAMES = [
    ('"', '"'), ('b"', '"'), ('c"', '"'), ("'", "'"), ("b'", "'"), ('r"', '"'), ('br#"', '"#'), ('cr"', '"'),
    ('r##"', '"##'), ('"\\', '"'), ('b"\\', '"'), ('c"\\', '"'), ("'\\", "'"), ("b'\\", "'"), ('"\\x', '"'), ('b"\\x', '"'),
    ('c"\\x', '"'), ('"\\u{', '}"'), ('c"\\u{', '}"'), ("'\\u{", "}'"), ('"\\\n', '"'), ('"\\\r', '"'), ('b"\\\r', '"'), ('c"\\\n', '"'),
    ('""', ''), ("''", ''), ('r#""#', ''), ('1', ''), ('0x', ''), ('0b', ''), ('0o', ''), ('-', ''), ('-1', ''), ('1.', ''), ('1e', ''),
    ('1e1', ''), ('1_', ''), ('0xe', ''), ('0b1e', ''), ('tru', ''), ('true', ''), ('-0', ''),
]

# For each command of rl_tool, texts with the lines that it must print, by `syn` and an independent model. The tests of Cargo
# include the file too, so it is a tuple of lists of pairs both in Rust and, except for the escape \u{..}, in Python.
RESULTS = Path(frame.TOP, 'rust/programs/tests/stored/texts.rs')
ESCAPE = re.compile(r'\\(?:u\{(\w+)\}|.)')
PYTHONS = ESCAPE.sub(lambda it: f'\\U{it[1]:0>8}' if it[1] else it[0], RESULTS.read_bytes().decode())
STORED = dict(zip(('text', 'read', 'attr'), ast.literal_eval(PYTHONS)))
WORKED = [text for text, _ in STORED['text']] + [
    str(LIMIT + 1) + 'f64', '-' + str(LIMIT + 1) + '_f32', str(LIMIT + 1) + 'f16', '-' + str(LIMIT + 1) + 'f644', hex(LIMIT + 1) + 'f64',
    '"' + 'a' * 5000 + '"', 'b"' + '\\xFF' * 700 + '"', '"' + '\\u{1F600}' * 300 + '"',
]


# A piece for every row of the table of escapes, and pieces that are just out of its range.
POINTS = ['0', '1', '7f', '7F', '80', 'ff', '100', '7ff', '800', 'D7FF', 'd800', 'DfFf', 'E000', 'FFFF', '10000', '10FFFF', '110000', 'FFFFFF', '0000000', '000041', '4_1', '4__', '_4', 'g', '']
PIECES = ['\\n', '\\r', '\\t', '\\\\', "\\'", '\\"', '\\0', '\\x00', '\\x41', '\\x7f', '\\x80', '\\xFf', '\\x4', '\\xg0', '\\x0g', '\\', '\\a', '\\u', '\\u{', '\\u{41', '\\x',
          '\\\n', '\\\n ', '\\\r', '\\\r\n', '\\\r\n\t\r \n', '\\\n\u00a0', '\\\n\v', '\r\n', '\r', '\n', '\t', '\0', '"', "'", '#', '"#', '##', 'a', '\u00e9', '\u20ac', '\U0001f600', '\x7f', '\x80', '\x1f', ' ',
          '\\\u00e9', '\\ ', '\\u{d7ff}', '\\N', '\\U{41}', '\\X41', 'n', 'x41', '{41}', '\r\r\n', '\n\r'] + ['\\u{%s}' % p for p in POINTS]
SUFFIXES = ['', '', '', 'u8', 'f64', '_', '__', '_u8', 'e', 'E', 'e5', 'e_5', 'e+5', 'ee5', 'x', 'X1', 'b1', 'o7', 'a', 'f', 'g', '\u00e9', '\u00b7', 'e5\u00b7', 'e5\u00e9', ' ', '#', '"', "'", '.', '.5', '-', '+1', 'e5.', '\u20ac', 'E-5', 'e5e5', 'e5_', 'e__', '\n', '\0', '\u0661']
TRIVIA = [' ', '\t', '\n', '\r', '\r\n', '\v', '\f', '\u0085', '\u00a0', '\u200e', '\u200f', '\u200b', '\u2028', '\u3000', '\ufeff', '//', '///', '////', '//!', '/*', '*/', '/**', '/***', '/**/', '/***/', '/*!', '/', '*', '!', 'a', '/* a */', '// a\n', '/*/', '"', '\u00e9']


def digits(random, base, count):
    return ''.join(random.choice('0123456789abcdefABCDEF'[:base if base < 16 else 22]) for _ in range(count))


def underscored(random, text):
    return ''.join(c + '_' * random.choice((0, 0, 0, 0, 1, 2)) for c in text) if random.random() < .4 else text


def random_integer(random):
    base, prefix, form = random.choice(((10, '', 'd'), (10, '', 'd'), (16, '0x', 'x'), (16, '0x', 'X'), (8, '0o', 'o'), (2, '0b', 'b')))
    if random.random() < .5:
        around = random.choice((0, 1, 10, 255, 2**31, 2**32, 2**63, 2**64, 2**127, 2**128, 2**128, 2**128, 10**38, 10**39, 2**129, 2**128 // base))
        body = format(max(0, around + random.randint(-3, 3)), form)
    else:
        body = digits(random, base, random.choice((0, 1, 2, 3, 5, 20, 38, 39, 40, 45, 129)))
    body = '0' * random.choice((0, 0, 0, 1, 5)) + body
    return random.choice(('', '', '', '-', '+', '--')) + prefix + random.choice(('', '', '', '_')) + underscored(random, body) + random.choice(SUFFIXES)


def random_float(random):
    whole = underscored(random, digits(random, 10, random.choice((0, 1, 1, 2, 5, 40))))
    point = random.choice(('', '.', '.', '..')) + underscored(random, digits(random, 10, random.choice((0, 1, 2, 20))))
    power = random.choice(('', 'e', 'E', 'ee')) + random.choice(('', '_', '+', '-', '_+', '+_', '__-', '+-', '-_')) + underscored(random, digits(random, 10, random.choice((0, 1, 2, 5))))
    return random.choice(('', '', '-')) + whole + point + random.choice(('', power)) + random.choice(SUFFIXES)


def random_quoted(random):
    opener, closer = random.choice((('"', '"'), ('b"', '"'), ('c"', '"'), ("'", "'"), ("b'", "'")))
    inside = ''.join(random.choice(PIECES) for _ in range(random.choice((0, 1, 1, 1, 2, 3, 6))))
    return opener + inside + random.choice((closer, closer, closer, closer, '')) + random.choice(SUFFIXES)


def random_raw(random):
    hashes = random.choice((0, 1, 2, 3, random.randint(0, 300)))
    inside = ''.join(random.choice(PIECES + ['"', '"#', '"##', '"###']) for _ in range(random.choice((0, 1, 2, 4))))
    more = random.choice((0, 0, 0, -1, 1))
    return random.choice(('r', 'br', 'cr', 'rb', 'R')) + '#' * hashes + '"' + inside + '"' + '#' * max(0, hashes + more) + random.choice(SUFFIXES)


def random_trivia(random):
    return ''.join(random.choice(TRIVIA) for _ in range(random.randint(1, 8)))


def random_point(random):
    point = random.choice(POINTS) if random.random() < .3 else '%x' % random.choice((random.randint(0, 0x120000), 0xD7FF + random.randint(-2, 2), 0xDFFF + random.randint(-2, 3), 0x10FFFF + random.randint(-2, 2), random.randint(0, 0x900)))
    point = random.choice(('', '', '', '0', '00', '_')) + underscored(random, random.choice((point, point.upper())))
    opener, closer = random.choice((('"', '"'), ('b"', '"'), ('c"', '"'), ("'", "'"), ("b'", "'")))
    return opener + '\\u{' + point + '}' + closer + random.choice(SUFFIXES)


def random_soup(random):
    return ''.join(random.choice(NEAR) for _ in range(random.randint(4, 12)))


def mutated(random):
    text = random.choice(WORKED)
    for _ in range(random.choice((1, 1, 2, 3))):
        at = random.randint(0, min(len(text), 60)) if random.random() < .8 else random.randint(0, len(text))
        end = min(len(text), at + random.choice((0, 0, 1, 1, 2, 5)))
        other = random.choice(WORKED)
        cut = random.randint(0, len(other))
        text = text[:at] + random.choice(('', random.choice(NEAR), random.choice(PIECES), random.choice(SUFFIXES), other[:cut], other[cut:])) + text[end:]
    return text


MAKERS = [random_integer, random_integer, random_float, random_float, random_quoted, random_quoted, random_raw, random_point, random_trivia, random_soup, mutated, mutated, mutated]


def cuts():
    for text in WORKED:
        # Three texts repeat one piece. All their ends would be two thirds of these texts, with most of rustc's errors.
        for at in range(0, len(text) + 1, 1 if len(text) < 1000 else 61):
            yield text[:at]
            yield text[at:]


def single_edits():
    for text in WORKED:
        if len(text) > 60:
            continue
        for at in range(len(text) + 1):
            yield text[:at] + text[at + 1:]
            yield text[:at] + text[at:at + 1] * 2 + text[at + 1:]
            yield text[:at] + text[at + 1:at + 2] + text[at:at + 1] + text[at + 2:]
            for c in NEAR:
                yield text[:at] + c + text[at:]
                yield text[:at] + c + text[at + 1:]


def words(letters, lengths):
    """Returns the words of these lengths over the letters."""
    for length in lengths:
        yield from map(''.join, itertools.product(letters, repeat=length))


def framed():
    for middle in words(ALPHABET, range(4)):
        for opener, closer in FRAMES if len(middle) < 3 else FRAMES[:35]:
            yield opener + middle + closer


def characters():
    for code in itertools.chain(range(0xD800), range(0xE000, 0x110000)):
        c = chr(code)
        yield '1' + c
        yield "'" + c + "'a" + c


GAPS = [' ', ' ', '\n', '\t', '\r\n', '/**/', '/* a */', '// a\n', '//\n', '/* /* */ " */', '//// a\n', '/***/', '\u00a0', '\u200e', '\v']
ODD_GAPS = ['-', '+', '|', '//', '(', ')', '[', ']', '{', '/*', '*/', '/// a\n', '//! a\n', '/** a */', '#', "'", '`', '\u200b']
ITEMS = ['1', '0xFF_u8', '1.5', '1.', '1e5', '1e', '1.0e', '1e-5', '2.e', '1..2', '"a"', "'a'", "b'a'", 'b"a"', 'r"a"', 'r#"a"b"#', 'br##"x"#"##', 'true', 'false', '"a"u8', "'\\''", '"\\""', '"//"', '"/*"', '007', '9' * 40, '-1', '- 1.5', '-0x1F', '-/**/2u8']
ODD_ITEMS = ['truer', 'e5', 'u8', '_', "'''", "'a", 'r#a', '0b12', '0x', '[1]', '{}', '-"a"', '"\\q"', '--1', 'b"\u00e9"', '""']


def lists(seed, count):
    """Returns items with gaps between them. Most of the lists are valid, and some have one error."""
    source = random.Random(seed + 1)
    for _ in range(count):
        text = source.choice(('', '', '', source.choice(GAPS)))
        for _ in range(source.choice((1, 2, 2, 3, 4, 6))):
            near = source.random()
            text += source.choice(ITEMS) if near < .8 else source.choice(MAKERS)(source) if near < .9 else source.choice(ODD_ITEMS)
            near = source.random()
            text += source.choice(GAPS) if near < .7 else '' if near < .95 else source.choice(ODD_GAPS)
        yield text


STRICT_GAPS = [' ', ' ', '\n', '\t', '/**/', '/* a */', '// a\n', '//\n', '/* /* */ " */', '//// a\n', '/***/', '\u200e', '\v', '\u2028', '\u0085']
STRICT_ITEMS = [
    '1', '0xFF_u8', '0b1_', '1.5', '1.', '1e-5f32', '9' * 30, '"a"', '"a"u8', '"\u20ac\\\n  x"', "'a'x", "'\\''", "b'\\xFF'", 'b"\\xFF"', 'br##"a"#b"##', 'r"\\"',
    'c"a"', 'c"\u00e9"', 'cr#"a"b"#_x', 'c"\\xFF\\u{e9}"u8', 'cr"\u20ac"', 'true', 'false', '-1', '- 1.5', '-0x1F', '-/**/2u8',
]
NO_ITEMS = ['x', '+', '(1)', '[c"a" 2]', '{}', '-"a"', '--1', '- c"a"', 'truer', ',', '->', "'a", 'r#a', '/// a\n', '(', ']', '"a', '/* a']


def printed(seed, count):
    """Returns literals of the strict grammar, including C strings, with gaps between them. One of four texts has one error."""
    source = random.Random(seed + 3)
    for _ in range(count):
        items = [source.choice(STRICT_ITEMS) for _ in range(source.choice((1, 2, 3, 4, 8, 30) if source.random() < .2 else (1, 2, 3)))]
        if source.random() < .25:
            items.insert(source.randint(0, len(items)), source.choice(NO_ITEMS))
        yield ''.join(item + ''.join(source.choice(STRICT_GAPS) for _ in range(source.choice((1, 1, 1, 2, 3)))) for item in items)


NAMES = ['a', 'b', 'ab', 'name', 'true', 'false', '_', 'if', 'u8', '\u00e9', 'e\u0301', 'a1', 'A', 'r', 'b', 'c']
ODD_NAMES = ['', '1', '"a"', 'r#a', "'a", '-', 'a b', 'a.b', '(a)', '#[a]']


def attributes(seed, count):
    """Returns names that are set to literals, with commas between them. Most of the texts are valid, and some have one error."""
    source = random.Random(seed + 2)
    gap = lambda: source.choice(GAPS) if source.random() < .4 else ''
    for _ in range(count):
        text = gap()
        for at in range(source.choice((1, 1, 2, 2, 3, 5, 40) if source.random() < .1 else (0, 1, 1, 2, 3))):
            near = source.random()
            name = source.choice(NAMES) + (str(at) if source.random() < .7 else '') if near < .95 else source.choice(ODD_NAMES)
            near = source.random()
            value = source.choice(ITEMS) if near < .85 else source.choice(MAKERS)(source) if near < .92 else source.choice(ODD_ITEMS)
            equals = '=' if source.random() < .96 else source.choice(('', '==', ':', '=>', '= ='))
            comma = ',' if source.random() < .95 else source.choice(('', ',,', ';', ' '))
            text += name + gap() + equals + gap() + value + gap() + comma + gap()
        yield text.rstrip(', ') if source.random() < .5 else text


def randoms(seed, count):
    source = random.Random(seed)
    for _ in range(count):
        yield source.choice(MAKERS)(source)


# The characters of the rows `cut` that represent line ends and other control characters.
PICTURES = {0x240A: '\n', 0x240D: '\r', 0x2409: '\t', 0x2400: '\0'}


def rows():
    """Returns the texts of the stored rows of rl_rows: each start of the text of a row `cut`, and the long texts of the rows `long`,
    each of which has pieces of text after their numbers of repetitions."""
    lines = Path(frame.TOP, 'crates/rl_rows/stdin').read_bytes().decode(errors='replace').split('\n')
    plain = [line.partition(' ')[2] for line in lines if line.startswith('plain ')]
    for kind, _, row in (it.partition(' ') for it in plain):
        if kind == 'cut':
            yield from (row.translate(PICTURES)[:end] for end in range(len(row) + 1))
        elif kind == 'long':
            yield ''.join(piece * int(count) for count, _, piece in (part.partition(' ') for part in row.split('\t')))


def of_tables(*names):
    """Returns the given texts of tables of rust/programs/rows/tests/calls. A number in `⟨..⟩` represents a character."""
    for name in names:
        table = Path(frame.TOP, f'rust/programs/rows/tests/calls/{name}.rows').read_bytes().decode()
        for row in re.findall(r'(?m)^(?:<[^\n]*\n)+', table):
            given = '\n'.join(line[2:] for line in row.split('\n')[:-1])
            yield re.sub('⟨(.*?)⟩', lambda it: chr(int(it[1], 16)), given)


def families(seed, count):
    """Returns the families by name. A family is a function that returns its texts. A random family returns `count` texts."""
    return {
        'worked': lambda: iter(WORKED), 'cuts': cuts, 'edits': single_edits, 'short': lambda: words(ALPHABET, range(5)),
        'framed': framed, 'trivia': lambda: words('/*!\n\r a', range(8)), 'random': lambda: randoms(seed, count),
        'lists': lambda: lists(seed, count), 'characters': characters, 'rows': rows,
        'attributes': lambda: attributes(seed, count), 'printed': lambda: printed(seed, count),
    }


FAMILIES = list(families(0, 0))
# The commands for which a family is meaningful, if not all.
ABOUT = {
    'trivia': ['skip', 'read', 'spans'], 'characters': ['text', 'skip', 'read', 'strict'], 'lists': ['read', 'spans'], 'attributes': ['attr'], 'printed': ['spans', 'read'],
    'short': ['text', 'int', 'float', 'skip', 'value', 'read', 'strict'], 'framed': ['text', 'int', 'float', 'skip', 'value', 'read', 'strict'],
}


def fresh_batches(asked, names):
    """Returns the texts of these families in batches, as bytes, each text once, and each batch with the family's name. Prints the
    number of texts of each family."""
    seen, chosen = set(), families(asked.seed, asked.count)
    for name in names:
        before = len(seen)
        for batch in frame.batches(chosen[name]()):
            yield name, frame.fresh(batch, seen)
        print(f'family {name}: {len(seen) - before} texts', flush=True)


def literals_of(folders):
    """Returns the texts of the literals in the files below the folders, each once, as the model lexes them."""
    cuts = (cut_source(data.decode(errors='ignore')) for data in frame.sources_below(folders))
    return list(dict.fromkeys(token.text for cut in cuts for token in cut.literals()))
