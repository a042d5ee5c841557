"""Recognizes the differences that docs/DIFFERENCES.md lists, with a test on the text and both results for each command."""
import functools
import re
import unicodedata

from hidden import hiding
from model.sources import after_trivia

LIMIT = 2**128 - 1
BYTE_KINDS, PAST = 'byte kinds past ASCII, or with a lone quote, TAB, LF or CR', 'integers above 128 bits'
NEWER = 'characters newer than Unicode 14'
LEFT = 'what stands in a token is left to the reading: '
# The commands for which rustc's lexer gives the results.
OF_RUSTC = ('strict', 'spans', 'attr')
# White space that `skip` accepts and rustc doesn't.
OTHER_WHITE = '\u00a0\u1680\u202f\u205f\u3000' + ''.join(map(chr, range(0x2000, 0x200b)))
SHORT = {'0': '\0', 't': '\t', 'n': '\n', 'r': '\r'}
LONG = {ord(c): '\\' + letter for letter, c in SHORT.items()} | {34: '\\"', 92: '\\\\'}


# ---- lines of literals

def written(text):
    """Returns a text as a string literal, by the table of docs/GRAMMAR.md."""
    return '"' + ''.join(LONG.get(ord(c)) or ('\\x%02X' % ord(c) if ord(c) < 32 or ord(c) == 127 else c) for c in text) + '"'


def byte_string(data):
    """Returns bytes as a byte string literal, by the table of docs/GRAMMAR.md."""
    return ('b"' + ''.join(LONG.get(c) or (chr(c) if 32 <= c < 127 else '\\x%02X' % c) for c in data) + '"').encode()


def unescaped(text):
    """Returns the bytes that a written text encodes. Each escape encodes a byte."""
    short = {letter.encode(): c.encode() for letter, c in SHORT.items()}
    byte = lambda it: bytes([int(it[1][1:], 16)]) if len(it[1]) > 1 else short.get(it[1], it[1])
    return re.sub(rb'\\(x..|.)', byte, text.encode(), flags=re.S)


def verbatim(text):
    """Returns the line about a text that isn't a literal."""
    return ('Verbatim %s -' % written(text)).encode()


def parts_of(line):
    """Returns the kind, the value and the suffix of a line about a literal."""
    kind, rest = line.decode().split(' ', 1)
    quoted = re.match(r"""(?:[bc]?"(?:[^"\\]|\\.)*"|b?'(?:[^'\\]|\\.)*')""", rest, re.S)
    end = quoted.end() if quoted and kind not in ('Int', 'Float', 'Bool') else rest.index(' ')
    suffix = rest[end + 1:]
    return kind, rest[:end], '' if suffix == '-' else unescaped(suffix[1:-1]).decode() if suffix.startswith('"') else suffix


def value_line(data, line, is_package):
    """Returns the expected result of `value`: the text between the quotes or the number, if it is the value in syn's line. The package
    also borrows a float with underscores before its suffix, as `1.5` of `1.5_f32`."""
    text = data.decode()
    if not line.startswith((b'Str', b'ByteStr', b'CStr', b'Int', b'Float')) or is_big(line) or line.startswith(b'Byte') and is_loose(text):
        return b'None'
    kind, value, suffix = parts_of(line)
    body = text[:len(text) - len(suffix)] if suffix else text
    if kind in ('Int', 'Float'):
        body = body.rstrip('_') if is_package and kind == 'Float' else body
        body, value = body.encode(), value.encode()
    else:
        opener = re.match('[bc]?(r?)(#*)"', body)
        body, value = body[opener.end():len(body) - len(opener[2]) - 1].encode(), unescaped(value[value.index('"') + 1:-1])
    return byte_string(body) if body == value else b'None'


@functools.cache
def escaped():
    """Returns the characters that rl_scan prints as escapes: control characters, and invisible and bidirectional characters."""
    return re.compile('[\0-\x1f\x7f-\x9f%s]' % ''.join(sorted(hiding())))


def visible(line):
    """Returns the line as rl_scan prints it. A runner of GitHub takes a line with `##[` for a command."""
    return escaped().sub(lambda it: '\\u{%x}' % ord(it[0]), line.decode()).replace('##[', '##\\u{5b}').encode()


# ---- the contents of texts

def newer(text):
    """Whether the text contains a character that the identifier tables of Unicode 14 and later versions may classify
    differently."""
    return any(unicodedata.category(c) == 'Cn' or c in '\u200c\u200d\u30fb\uff65' for c in text)


def replaced(data):
    """Returns the text with a letter in place of each character that `newer` finds. A difference that remains has another cause."""
    text = data.decode(errors='surrogateescape')
    return ''.join('\u00e9' if newer(c) else c for c in text).encode(errors='surrogateescape')


def is_big(line):
    """Whether a line of syn's is about an integer above 128 bits."""
    words = line.split(b' ')
    digits = words[1].lstrip(b'-') if words[0] == b'Int' else b'0'
    return len(digits) > 39 or int(digits) > LIMIT


def is_past(text):
    """Whether a text begins with an integer above 128 bits."""
    found = re.match(r'-?(?:0x([0-9a-fA-F_]+)|0o([0-7_]+)|0b([01_]+)|([0-9_]+))', text)
    bases = zip(found.groups() if found else (), (16, 8, 2, 10))
    return any(int('0' + digits.replace('_', ''), base) > LIMIT for digits, base in bases if digits)


def is_long_past(text):
    """Whether the text is such a long integer above 128 bits that syn's code would take too long."""
    digits = re.fullmatch('(?:0x[0-9a-fA-F_]*|0o[0-7_]*|0b[01_]*|[0-9_]*)', text) if len(text) > 10_000 else None
    return bool(digits) and len(re.sub('^0[xob]|_', '', text).lstrip('0')) > 128


def is_loose(text):
    """Whether a byte literal or byte string that syn may accept contains a non-ASCII character, or between single quotes one of the
    five characters that need an escape."""
    byte = re.match(r"b'([^\\])'", text, re.S)
    if byte:
        return not byte[1].isascii() or byte[1] in "'\n\r\t"
    string = re.match(r'b"((?:[^"\\]|\\.)*)"', text, re.S) or re.match(r'br#*"(.*)"', text, re.S)
    return bool(string) and not string[1].isascii()


def is_tightened(their, our):
    """Whether a line of syn's is about a byte literal or byte string, and our line says `Verbatim`, because the stricter rule
    rejects the text."""
    told = re.fullmatch(r'Verbatim "(.*)" -', our.decode(), re.S)
    return their.startswith((b'Byte ', b'ByteStr ')) and told is not None and is_loose(unescaped(told[1]).decode())


def continues_only(c):
    """Whether the character can continue an identifier, but can't begin one."""
    return not c.isascii() and ('a' + c).isidentifier() and not c.isidentifier()


# ---- read

def first_of(table, text):
    """Returns the description of the first pattern of a table that occurs in the text, or None."""
    return next((words for form, words in table if re.search(form, text)), None)


# Texts that proc_macro2's lexer rejects, and that our lexer leaves to the parser.
LEFT_TO_READING = [('0x|0o|0b', LEFT + 'digits of a base'), (r'\r|\\\n', LEFT + 'line ends')]


def cut_listed(text):
    """Returns the listed difference for which the two lexers end tokens at different positions, or None."""
    if text.startswith('\ufeff'):
        return 'a byte order mark at the front'
    if re.search('[eE]_+[-+]', text):
        return 'underscores before the sign of an exponent'
    if any(continues_only(text[found.end()]) for found in re.finditer('[eE][-+]?[0-9_]*[0-9][0-9_]*(?=.)', text)):
        return 'a character that begins no suffix, after an exponent'
    return None


def read_listed(text, their, our):
    """Returns the listed difference for the command `read`, for which one side may reject the text, or None."""
    if our.startswith(b'error at '):
        if b'not carried' in our or b'too deep' in our:
            return 'forms that `lex` rejects by name'
        return PAST if any(is_big(line) for line in their.split(b'\n')) else None
    if their not in (b'rejected', b'unlexed'):
        apart = [(t, o) for t, o in zip(their.split(b'\n'), our.split(b'\n')) if t != o]
        tightened = [is_tightened(t, o) for t, o in apart]
        is_known = all(tight or is_big(t) and o.startswith(b'Verbatim') for tight, (t, o) in zip(tightened, apart))
        return (BYTE_KINDS if any(tightened) else PAST) if is_known and their.count(b'\n') == our.count(b'\n') else None
    if re.search('c"|cr"|cr#', text):
        return 'C strings, newer than the oracle'
    if their == b'rejected':
        return None
    return LEFT + 'Verbatim' if b'Verbatim ' in our else first_of(LEFT_TO_READING, text)


# ---- strict, spans, attr

# Patterns of texts in which rustc's lexer reports an error and our program may not. The first two may occur before and after
# `Verbatim` lines.
TAKEN_AWAY = [(r'\r|\A\ufeff', 'CR and byte order marks, which rustc takes away')]
UNLEXED = [
    (f'[{OTHER_WHITE}]', 'white space that the Reference has not'),
    (r"'('|\n|\t)'", 'characters that are a lone quote, TAB or LF'),
    ('(true|false)["\'#]', 'reserved prefixes: a word right before a quote'),
    ('["\'#]_(?![0-9A-Za-z_])', 'a suffix that is `_` alone'),
    ('0[xob]', LEFT + 'digits of a base'),
    ('[0-9_.][eE]', LEFT + 'exponents without digits'),
    ('#{256}', 'raw forms of more than 255 hashes'),
]


def is_past_line(their, our):
    """Whether rustc's line differs from ours by an integer above 128 bits: our line is `Verbatim`, with the same position or
    name."""
    told = re.fullmatch(r'(.*?)Int (?:[0-9]+\.\.[0-9]+ ")?(-?[0-9].*)', their, re.S)
    return bool(told) and is_past(told[2]) and our.startswith(told[1] + 'Verbatim ')


def lines_differ_by_past(their, our):
    """Whether all differing lines differ by an integer above 128 bits."""
    pairs = list(zip(their.split('\n'), our.split('\n')))
    return their != our and their.count('\n') == our.count('\n') and all(t == o or is_past_line(t, o) for t, o in pairs)


def is_named(data, our):
    """Whether our program rejects a text that rustc accepts at first: a minus before an integer above 128 bits, or a symbol."""
    told = re.fullmatch(r'error at ([0-9]+)\.\.[0-9]+: (.*)', our)
    rest = data[int(told[1]):].decode() if told else ''
    if told and told[2] == 'expected literal' and rest.startswith('-') and is_past(rest[after_trivia(rest, 1):]):
        return PAST
    is_symbol = told and told[2] == 'stray character' and unicodedata.category(rest[0]) == 'So'
    return 'symbols that rustc rejects after its lexer' if is_symbol else None


def lists_listed(text, their, our):
    """Returns the listed difference for the commands `spans` and `attr`, or None."""
    if their == b'unlexed':
        left = [('', LEFT + 'Verbatim')] if b'Verbatim ' in our else []
        return first_of(TAKEN_AWAY + left + UNLEXED, text)
    # rustc converts identifiers to this normal form.
    said, ours = (unicodedata.normalize('NFC', it.decode()) for it in (their, our))
    if b'nested too deep' in our:
        return 'more than 128 open groups'
    if lines_differ_by_past(said, ours):
        return PAST
    if known := is_named(text.encode(), ours):
        return known
    is_other_form = unicodedata.normalize('NFC', text) != text and (ours == said or 'repeated name' in said)
    return 'names that have another normal form' if is_other_form else None


def strict_listed(text):
    """Returns the listed difference for the command `strict`, or None."""
    return 'a CR among the white space after an escaped line end' if re.search(r'\\\n[ \t\n]*\r', text) else None


# ---- every command

def listed(command, data, their, our):
    """Returns the difference that docs/DIFFERENCES.md lists, or None."""
    text, known = data.decode(), None
    if command == 'read':
        known = read_listed(text, their, our) or cut_listed(text)
    elif command in ('spans', 'attr'):
        known = lists_listed(text, their, our)
    elif command == 'strict':
        known = strict_listed(text)
    elif command == 'text' and is_loose(text) and is_tightened(their, our):
        known = BYTE_KINDS
    elif command in ('text', 'int') and is_big(their) and our == (verbatim(text) if command == 'text' else b'TooLarge'):
        known = PAST
    return known or (NEWER if newer(text) else None)


def kind_of(command, their, our):
    """Classifies a result for the statistics."""
    if command in ('read', 'spans', 'attr'):
        if their in (b'rejected', b'unlexed'):
            return 'rejections, of which the other tells no place'
        return 'rejections' if our.startswith(b'error at ') else 'lists'
    if command == 'value':
        return 'none' if our == b'None' else 'borrowed'
    return 'places' if command == 'skip' else our.split(b' ', 1)[0].decode()


def compare(report, command, texts, ask):
    """Compares the results of two programs for the texts, for one command. `ask` returns both programs' results. If a lexer rejects a
    text, our program may reject it for any reason. If a difference is listed only because of a newer character, the results without
    this character are compared, too."""
    others, (theirs, ours) = [], ask(texts)
    rejected = (b'unlexed',) if command in OF_RUSTC else (b'rejected', b'unlexed')
    for data, their, our in zip(texts, theirs, ours):
        # A byte literal that rustc rejects must be `Verbatim` here, so equal results are a difference.
        is_byte = command == 'text' and their.startswith(b'Byte') and is_loose(data.decode())
        if not is_byte and (their == our or their in rejected and our.startswith(b'error at ')):
            report.agreeing[command, kind_of(command, their, our)] += 1
        elif known := listed(command, data, their, our):
            report.listed[command, known] += 1
            others += [replaced(data)] if known == NEWER else []
        else:
            report.differs(command, data, their, our)
    report.compared += len(texts)
    if others:
        compare(report, command, others, ask)
