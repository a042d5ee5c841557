"""Divides literals into their parts: quoted literals by the lenient grammar ("Quoted kinds" of docs/GRAMMAR.md), and tokens of
Rust.

flaws.py decides which texts are tokens. The lenient rules also accept every token, and divide it into the same parts.
"""
import functools
import re
from typing import NamedTuple

from model import flaws

# For each kind, the text that opens a literal with escapes, and the text that opens a raw literal.
OPENERS, RAW_OPENERS = {**flaws.COOKED, **flaws.SINGLE}, flaws.RAW
RAW_KINDS = {opener: kind for kind, opener in RAW_OPENERS.items()}
CHARACTERS, BYTES = ('Str', 'Char'), ('ByteStr', 'Byte')
NAMED = {'n': 10, 'r': 13, 't': 9, '\\': 92, '0': 0}
ESCAPE = re.compile(r"""\\(?:(?P<quote>['"])|(?P<letter>[nrt\\0])|x(?P<hex>[0-9a-fA-F]{2})"""
                    r'|u\{(?P<unicode>(?:[0-9a-fA-F]_*){1,6})\}|(?P<break>[\r\n][ \t\r\n]*))')
RAW_FORM = re.compile(r'(r|br|cr)(#*)"')
BASES = {'0b': (2, '[01_]*'), '0o': (8, '[0-7_]*'), '0x': (16, '[0-9a-fA-F_]*')}
DECIMAL = re.compile(r'[0-9][0-9_]*(?P<rest>(?:\.(?:[0-9][0-9_]*)?)?(?:[eE][+-]?[0-9_]*[0-9][0-9_]*)?)')


class Unit(NamedTuple):
    """A character or an escape: its form (`itself`, `quote`, `letter`, `hex`, `unicode`, `break`, `line`), its text, and its
    number."""
    what: str
    text: str
    code: 'int | None'


class Literal(NamedTuple):
    """The parts of a literal: kind, form (`escapes`, `raw`, `int`, `float`, `word`), the other parts by name, and the suffix."""
    kind: str
    form: str
    parts: dict
    suffix: str


def closer(kind):
    """Returns the quote that closes a literal of the kind."""
    return OPENERS[kind][-1]


def escape_at(kind, text, at):
    """Returns the escape at a position, or None if no escape of this kind of literal begins there."""
    found = ESCAPE.match(text, at)
    if not found:
        return None
    what, body = found.lastgroup, found[found.lastgroup]
    if what == 'break':
        return None if kind in flaws.SINGLE else Unit(what, found[0], None)
    code = ord(body) if what == 'quote' else NAMED[body] if what == 'letter' else int(body.replace('_', ''), 16)
    if what == 'hex' and kind in CHARACTERS and code > 127 or kind == 'CStr' and code == 0:
        return None
    if what == 'unicode' and (kind in BYTES or code > 0x10FFFF or 0xD800 <= code < 0xE000):
        return None
    return Unit(what, found[0], code)


def unit_at(kind, text, at):
    """Returns the character or escape at a position, or None if none of this kind of literal begins there."""
    c = text[at]
    if c == '\\':
        return escape_at(kind, text, at)
    if kind not in flaws.SINGLE and text.startswith('\r\n', at):
        return Unit('line', '\r\n', 10)
    rejected = {'Char': '', 'Byte': "'\n\r\t", 'CStr': '"\r\0'}.get(kind, '"\r')
    is_run_byte = c not in rejected and (c.isascii() or kind not in BYTES)
    return Unit('itself', c, ord(c)) if is_run_byte else None


def with_escapes(kind, text):
    """Returns the literal of this kind that the text begins, or None if it has an invalid escape or character, or isn't closed."""
    at, units, is_single = len(OPENERS[kind]), [], kind in flaws.SINGLE
    while at < len(text) and (not units if is_single else text[at] != '"'):
        found = unit_at(kind, text, at)
        if not found:
            return None
        units.append(found)
        at += len(found.text)
    is_closed = text[at:at + 1] == closer(kind) and (units or not is_single)
    return Literal(kind, 'escapes', {'units': units}, text[at + 1:]) if is_closed else None


def raw(text):
    """Returns the raw literal that the last quote closes, or None if the text isn't one."""
    front, end = RAW_FORM.match(text), text.rfind('"')
    if not front or end < front.end() or not text.startswith(front[2], end + 1):
        return None
    kind, inside = RAW_KINDS[front[1]], text[front.end():end]
    if kind == 'ByteStr' and not inside.isascii() or kind == 'CStr' and '\0' in inside:
        return None
    return Literal(kind, 'raw', {'hashes': len(front[2]), 'inside': inside}, text[end + 1 + len(front[2]):])


def quoted(text):
    """Returns the quoted literal by the lenient grammar, or None if the text isn't one."""
    kind = next((kind for kind, opener in OPENERS.items() if text.startswith(opener)), None)
    return with_escapes(kind, text) if kind else raw(text)


def number(token):
    """Returns the parts of a token that begins with a digit."""
    if base := BASES.get(token[:2]):
        row = re.match(base[1], token[2:])[0]
        return Literal('Int', 'int', {'prefix': token[:2], 'base': base[0], 'row': row}, token[2 + len(row):])
    found = DECIMAL.match(token)
    if found['rest']:
        return Literal('Float', 'float', {'numeral': found[0]}, token[found.end():])
    return Literal('Int', 'int', {'prefix': '', 'base': 10, 'row': found[0]}, token[found.end():])


@functools.lru_cache(2048)
def literal(text):
    """Returns the parts of a literal token of Rust, or None if the text isn't one."""
    if not flaws.is_token(text):
        return None
    if text in ('true', 'false'):
        return Literal('Bool', 'word', {'word': text}, '')
    return number(text) if text[0].isdigit() else quoted(text)


def text_of(it):
    """Returns the text of a literal from its parts."""
    parts = it.parts
    if it.form == 'word':
        return parts['word']
    if it.form == 'escapes':
        return OPENERS[it.kind] + ''.join(unit.text for unit in parts['units']) + closer(it.kind) + it.suffix
    if it.form == 'raw':
        hashes = '#' * parts['hashes']
        return f'{RAW_OPENERS[it.kind]}{hashes}"{parts["inside"]}"{hashes}{it.suffix}'
    return (parts['prefix'] + parts['row'] if it.form == 'int' else parts['numeral']) + it.suffix


def contents(it):
    """Returns the decoded value: characters, bytes, digits in base ten, a float's digits, `true` or `false`."""
    parts = it.parts
    if it.form == 'word':
        return parts['word']
    if it.form == 'raw':
        return parts['inside'] if it.kind == 'Str' else parts['inside'].encode()
    if it.form == 'int':
        return str(int(parts['row'].replace('_', ''), parts['base']))
    if it.form == 'float':
        return parts['numeral'].replace('_', '').replace('+', '').replace('E', 'e')
    codes = [unit for unit in parts['units'] if unit.code is not None]
    if it.kind in CHARACTERS:
        return ''.join(chr(unit.code) for unit in codes)
    return b''.join(chr(unit.code).encode() if unit.what in ('itself', 'unicode') else bytes([unit.code]) for unit in codes)
