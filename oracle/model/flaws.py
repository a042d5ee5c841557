"""Decides which texts are tokens of the strict grammar, and returns the flaw of any other text: its kind, its piece and its
position.

The position of a flaw follows from its definition. The grammar is written as regular expressions. Debian's package python3-regex
also tells whether a text can be continued to a text that matches. So the longest prefix of a text that is also a prefix of some
token is the text up to which the grammar can be continued. The kind and the piece come from the one row of a table that fits this
prefix and the character after it.
"""
import bisect
import functools
import re

import regex

# In a sketch of a text, each non-ASCII character is replaced by one of these: a character that begins an identifier, one that only
# continues an identifier, and any other.
STARTS, CONTINUES, OTHER = '\u00e9', '\u00b7', '\u20ac'
MOST_HASHES = 255


def sketch(text):
    """Returns the sketch of a text, in which each non-ASCII character is replaced by one of three."""
    return ''.join(c if c.isascii() else STARTS if c.isidentifier() else CONTINUES if ('a' + c).isidentifier() else OTHER for c in text)


# ---- the strict grammar, without lookaheads, which would ask for the text after the end

H, DIGIT, NON_ASCII = '[0-9A-Fa-f]', '[0-9]', STARTS + CONTINUES + OTHER
AFTER = '[0-9A-Za-z_\u00e9\u00b7]*'
SUFFIX = '(?:[A-Za-z\u00e9]%s|_[0-9A-Za-z_\u00e9\u00b7]%s)?' % (AFTER, AFTER)
# For each kind, the characters that no literal of the kind contains as they are.
REJECTED = {
    'Str': r'"\\\r', 'ByteStr': r'"\\\r' + NON_ASCII, 'CStr': r'"\\\r\0', 'Char': r"'\\\n\r\t", 'Byte': r"'\\\n\r\t" + NON_ASCII}
REJECTED_RAW = {'Str': r'\r', 'ByteStr': r'\r' + NON_ASCII, 'CStr': r'\r\0'}
COOKED = {'Str': '"', 'ByteStr': 'b"', 'CStr': 'c"'}
SINGLE = {'Byte': "b'", 'Char': "'"}
RAW = {'Str': 'r', 'ByteStr': 'br', 'CStr': 'cr'}


def scalar(with_zero):
    """Returns the form of one to six digits of a Unicode scalar value, with underscores after each: zeros, and then digits that
    begin with another digit."""
    h, some = H + '_*', '[1-9A-Fa-f]_*'
    four = '(?:[1-9A-CEFa-cef]_*%s|[Dd]_*[0-7]_*%s)' % (h * 3, h * 2)
    significant = {1: some, 2: some + h, 3: some + h * 2, 4: four, 5: some + h * 4, 6: '1_*0_*' + h * 4}
    numbers = ['(?:0_*){0,%d}%s' % (6 - count, form) for count, form in significant.items()]
    return '(?:%s)' % '|'.join(numbers + ['(?:0_*){1,6}'] * with_zero)


def escape(kind):
    """Returns the form of an escape."""
    hexes = {'Byte': H + H, 'ByteStr': H + H, 'CStr': '(?:[1-9A-Fa-f]%s|0[1-9A-Fa-f])' % H}.get(kind, '[0-7]' + H)
    forms = [r"""[nrt\\'"]""", 'x' + hexes]
    if kind != 'CStr':
        forms.append('0')
    if kind not in ('Byte', 'ByteStr'):
        forms.append(r'u\{%s\}' % scalar(kind != 'CStr'))
    if kind not in SINGLE:
        forms.append(r'\n[ \t\n]*')
    return r'\\(?:%s)' % '|'.join(forms)


def raw(kind, hashes):
    """Returns the form of a raw string that closes at its first quote with this number of hashes after it. Each quote inside has
    fewer hashes after it, and then a character that is neither a quote nor one more hash, or the closing quote."""
    plain = '[^"%s]' % REJECTED_RAW[kind]
    few, other = '(?:"#{0,%d})' % (hashes - 1), '[^"#%s]' % REJECTED_RAW[kind]
    inside = '(?:%s|%s+%s)*%s*' % (plain, few, other, few) if hashes else plain + '*'
    return '%s#{%d}"%s"#{%d}%s' % (RAW[kind], hashes, inside, hashes, SUFFIX)


def numbers():
    """Returns the forms of numbers."""
    suffix = lambda letters: '(?:[%s\u00e9]%s)?' % (letters, AFTER)
    no_exponent, power = suffix('A-DF-Za-df-z'), '[eE][-+]?_*[0-9][0-9_]*'
    return [
        '[1-9][0-9_]*' + no_exponent, '0[0-9_]+' + no_exponent, '0' + suffix('A-DF-Za-ac-df-np-wyz'),
        '0x_*%s[0-9A-Fa-f_]*%s' % (H, suffix('G-Zg-z')), '0o_*[0-7][0-7_]*' + no_exponent, '0b_*[01][01_]*' + no_exponent,
        r'[0-9][0-9_]*\.', r'[0-9][0-9_]*\.[0-9][0-9_]*' + no_exponent,
        r'[0-9][0-9_]*(?:\.[0-9][0-9_]*)?%s%s' % (power, suffix('A-Za-z')),
    ]


# The forms of quoted literals, and the expression of all tokens except raw strings.
BODIES = {kind: '(?:[^%s]|%s)' % (REJECTED[kind], escape(kind)) + '*' * (kind in COOKED) for kind in REJECTED}
QUOTED = [opener + BODIES[kind] + opener[-1] + SUFFIX for kind, opener in {**COOKED, **SINGLE}.items()]
PLAIN = regex.compile('|'.join([*QUOTED, *numbers(), 'true', 'false']))


@functools.lru_cache(maxsize=None)
def raw_tokens(hashes):
    """Returns the expression of the raw strings with this number of hashes."""
    return regex.compile('|'.join(raw(kind, hashes) for kind in RAW))


def tokens_like(drawn):
    """Returns the expressions of the tokens that a sketch may begin. A text that continues after its hashes can only begin a raw
    string with this number of hashes."""
    hashes = re.match('(?:br|cr|r)?(#*)', drawn)[1]
    return PLAIN, raw_tokens(min(len(hashes), MOST_HASHES))


def longest_front(drawn):
    """Returns the length of the longest prefix of a sketch that is a prefix of some token."""
    tokens = tokens_like(drawn)
    is_beyond = lambda count: not any(it.fullmatch(drawn[:count], partial=True) for it in tokens)
    return bisect.bisect_left(range(1, len(drawn) + 1), True, key=is_beyond)


def is_token(text):
    """Whether the text is a literal token of Rust."""
    drawn = sketch(text)
    return any(it.fullmatch(drawn) for it in tokens_like(drawn))


# ---- the kinds of flaws: for each row a pattern of the prefix, and one of the character after it or the end; the piece begins at
# the group p, or at the flaw's position

UNIT = r"""(?:[^"'\\\r]|\\[nrt\\'"0]|\\x%s{2}|\\u\{%s[0-9A-Fa-f_]*\}|\\\n[ \t\n]*)""" % (H, H)
PART = r'(?:\\(?:x%s?|u(?:\{[0-9A-Fa-f_]*)?)?)' % H
STRING, LETTER = r"""[bc]?"(?:%s|')*+""" % UNIT, "b?'"
OPEN = '(?:%s|%s)' % (STRING, LETTER)
LETTER_UNIT = '%s(?P<p>%s|")' % (LETTER, UNIT)
RAW_OPENER = '(?:br|cr|r)'
RAW_INSIDE = r'%s(?P<h>\#*)"(?:(?!"(?P=h)).)*' % RAW_OPENER
# Literals that are closed: a pattern of the text before the closing quote, and the closing delimiter.
CLOSED = [(STRING, '"', '"'), ('%s(?:%s|")' % (LETTER, UNIT), "'", "'"), (RAW_INSIDE, '"(?P=h)', '"')]
WORD = '[A-Za-z_\u00e9]' + AFTER
SUFFIX_OF_NUMBER = '[A-Za-z\u00e9]' + AFTER
HEX_NUMBER, OTHER_BASE = '0x_*%s[0-9A-Fa-f_]*+' % H, '0[ob]_*[0-9][0-9_]*+'
DECIMAL = r'(?!0[xob])[0-9][0-9_]*+(?:\.[0-9][0-9_]*+)?+'
POWER = '[eE][-+]?_*[0-9][0-9_]*+'


def code_after(front, c):
    """Returns the number between the braces at the character that decides about its range: the sixth digit, or the brace after
    fewer digits."""
    digits = front[front.rindex('{') + 1:].replace('_', '') + c.rstrip('}')
    return int(digits, 16) if (len(digits) == 6) == (c != '}') else -1


JUDGES = '[0-9A-Fa-f}]'
BRACED = OPEN + r'(?P<p>\\u\{%s[0-9A-Fa-f_]*)' % H
ROWS = [
    ('Empty', '', ''), ('Minus', '', '-'), ('NotALiteral', '', '[^-]'), ('NotALiteral', '(?P<p>b|c|true|false|tr?u?|fa?l?s?)', '.'),
    ('UnexpectedEnd', '(?P<p>b|c|tr?u?|fa?l?s?)', ''), ('UnexpectedEnd', RAW_OPENER + r'\#*', ''), ('NoQuote', RAW_OPENER + r'\#*', '[^#]'),
    ('TooManyHashes', RAW_OPENER + r'(?P<p>\#*)', r'\#'),
    ('Unclosed', '%s(?P<p>%s?)' % (STRING, PART), ''), ('Unclosed', "%s(?P<p>%s?|%s|\")" % (LETTER, PART, UNIT), ''), ('Unclosed', RAW_INSIDE, ''),
    ('UnknownEscape', STRING + r'(?P<p>\\)', r"""[^nrt\\'"0xu\n\r]"""), ('UnknownEscape', LETTER + r'(?P<p>\\)', r"""[^nrt\\'"0xu]"""),
    ('NoUnicode', '(?=b)' + OPEN + r'(?P<p>\\)', 'u'), ('NoHexDigit', OPEN + r'(?P<p>\\x%s?)' % H, '[^0-9A-Fa-f]'),
    ('NoHexDigit', OPEN + r'(?P<p>\\u\{)', '[^0-9A-Fa-f}]'), ('NoHexDigit', BRACED, '[^0-9A-Fa-f_}]'), ('NoBrace', OPEN + r'(?P<p>\\u)', r'[^{]'),
    ('EmptyBraces', OPEN + r'(?P<p>\\u\{)', r'\}'), ('TooManyDigits', OPEN + r'(?P<p>\\u\{(?:%s_*){6})' % H, H),
    ('HexEscapeOutOfRange', '(?![bc])' + OPEN + r'(?P<p>\\x)', '[89A-Fa-f]'),
    ('UnicodeEscapeOutOfRange', BRACED, JUDGES, lambda code: code > 0x10FFFF), ('Surrogate', BRACED, JUDGES, lambda code: 0xD800 <= code <= 0xDFFF),
    ('Nul', '(?=c)' + OPEN, r'\0'), ('Nul', '(?=c)' + OPEN + r'(?P<p>\\)', '0'), ('Nul', '(?=c)' + OPEN + r'(?P<p>\\x0)', '0'),
    ('Nul', '(?=c)' + BRACED, JUDGES, lambda code: code == 0), ('Nul', '(?=c)' + RAW_INSIDE, r'\0'),
    ('NotAscii', '(?=b)(?:%s|%s)' % (OPEN, RAW_INSIDE), r'[^\0-\x7f]'),
    ('CarriageReturn', STRING + r'(?P<p>\\?)', r'\r'), ('CarriageReturn', RAW_INSIDE, r'\r'),
    ('MustEscape', LETTER, r'[\n\r\t]'), ('NoCharacter', LETTER, "'"), ('TwoCharacters', LETTER_UNIT, "[^']"),
    *[('TextAfterQuote', '%s(?P<p>%s)(?:%s)?' % (before, closer, WORD), quote) for before, closer, quote in CLOSED],
    ('ExtraHash', RAW_INSIDE + '(?P<p>"(?P=h))', r'\#'),
    *[('UnderscoreSuffix', before + closer + '(?P<p>_)', '') for before, closer, _ in CLOSED],
    *[('BadSuffix', '%s%s(?P<p>%s)' % (before, closer, WORD), '[^%s]' % quote) for before, closer, quote in CLOSED],
    *[('BadSuffix', before + closer, '[^%s%s]' % (quote, '#' if before == RAW_INSIDE else '')) for before, closer, quote in CLOSED],
    ('NoDigits', '(?P<p>0x_*)', '|[^0-9A-Fa-f_]'), ('NoDigits', '(?P<p>0[ob]_*)', '|[^0-9_]'), ('InvalidDigit', '(?P<p>0[ob][0-9_]*)', DIGIT),
    ('BasedFloat', '(?P<p>%s)' % HEX_NUMBER, '[.]'), ('BasedFloat', '(?P<p>%s)' % OTHER_BASE, '[.eE]'),
    ('NoFractionDigit', '(?P<p>[0-9][0-9_]*[.])', '[^0-9]'), ('NoExponentDigit', '(?P<p>%s[eE][-+]?_*)' % DECIMAL, '|[^0-9_]'),
    ('BadSuffix', '(?P<p>%s)' % HEX_NUMBER, '[^.]'), ('BadSuffix', '(?P<p>%s)' % OTHER_BASE, '[^.eE0-9]'),
    ('BadSuffix', '(?P<p>(?:%s|%s)%s)' % (HEX_NUMBER, OTHER_BASE, SUFFIX_OF_NUMBER), '.'), ('BadSuffix', '(?P<p>%s(?:%s)?)' % (DECIMAL, POWER), '.'),
    ('BadSuffix', '(?P<p>%s(?:%s|(?![eE]))%s)' % (DECIMAL, POWER, SUFFIX_OF_NUMBER), '.'),
]
COMPILED = [(kind, re.compile(front, re.S), re.compile(c, re.S), *code) for kind, front, c, *code in ROWS]


def rows_at(front, c):
    """Returns the kinds and pieces of the rows that fit the prefix of a sketch and the character after it. There is only one if the
    table is right."""
    found = []
    for kind, fits_front, fits_c, *code in COMPILED:
        fits = fits_c.fullmatch(c) and fits_front.fullmatch(front)
        if fits and (not code or code[0](code_after(front, c))):
            found.append((kind, fits.start('p') if 'p' in fits_front.groupindex else len(front)))
    return found


def flaw(text):
    """Returns the kind of a text's flaw, the byte offset at which its piece begins, and its own byte offset, or None for a
    token."""
    if is_token(text):
        return None
    drawn = sketch(text)
    count = longest_front(drawn)
    found = rows_at(drawn[:count], drawn[count:count + 1])
    if len(found) != 1:
        return '%d rows fit' % len(found), 0, 0, 0
    kind, begin = found[0]
    return (kind, *(len(text[:at].encode()) for at in (begin, count, count + 1)))


def number_after_minus(text):
    """Returns the flaw of the number after a minus. The piece is the whole text."""
    if not re.match('-[0-9]', text):
        return 'NoNumber' if text[1:] else 'UnexpectedEnd', 0, 1, len(text[:2].encode())
    found = flaw(text[1:])
    return found and (found[0], 0, found[2] + 1, found[3] + 1)


INTEGER = re.compile('(-?(?:0x([0-9A-Fa-f_]*+)|0o([0-7_]*+)|0b([01_]*+)|(?!0[xob])([0-9][0-9_]*+)(?![eE])))(?:%s)?' % SUFFIX_OF_NUMBER)


def limit(text):
    """Returns the flaw of a literal, perhaps after a minus, that is an integer above 128 bits, or None. In base ten the suffixes
    `f32` and `f64` make it a float."""
    integer = INTEGER.fullmatch(sketch(text))
    if not integer:
        return None
    digits, base = next((it, base) for it, base in zip(integer.groups()[1:], (16, 8, 2, 10)) if it is not None)
    end = integer.end(1)
    if base == 10 and text[end:] in ('f32', 'f64'):
        return None
    return ('TooLarge', 0, end, len(text[:end + 1].encode())) if int(digits.replace('_', ''), base) >= 2**128 else None


def line_of(found):
    return b'%s %d %d..%d' % (found[0].encode(), *found[1:]) if found else b'None'


def line(text):
    """Returns the line that the command `explain` must print."""
    return line_of(flaw(text))


def value_line(text):
    """Returns the line that the command `explain-value` must print."""
    found = number_after_minus(text) if text[:1] == '-' else flaw(text)
    return line_of(found or limit(text))
