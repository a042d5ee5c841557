"""Lexes whole Rust sources. It is written only from the section of docs/GRAMMAR.md about whole sources."""
import functools
import itertools
import re
import sys
from typing import NamedTuple, Optional

WHITE = '\t\n\v\f\r \u0085\u00a0\u1680\u2000-\u200a\u2028\u2029\u202f\u205f\u3000\u200e\u200f'


def character_class(holds):
    """Returns the inside of a character class, with the non-ASCII characters for which `holds` returns true."""
    is_in = lambda code: not 0xD800 <= code < 0xE000 and holds(chr(code))
    runs = (list(run) for inside, run in itertools.groupby(range(0x80, sys.maxunicode + 1), is_in) if inside)
    return ''.join('%s-%s' % (chr(run[0]), chr(run[-1])) for run in runs)


START = '[A-Z_a-z%s]' % character_class(str.isidentifier)
CONTINUE = '[0-9A-Z_a-z%s]' % character_class(lambda c: ('a' + c).isidentifier())
WORD = START + CONTINUE + '*+'
SUFFIX = '(?:%s)?+' % WORD

compiled = functools.partial(re.compile, flags=re.S)
# White space and comments that are skipped between tokens, except block comments.
SPACE = compiled('(?:[%s]++|//(?![!/])[^\n]*+\n?|////[^\n]*+\n?)++' % WHITE)
BLOCK_EDGE = compiled(r'/\*|\*/')
DOC_BLOCK = compiled(r'/\*(?:!|\*(?![*/]))')
# The start of a source.
INTERPRETER = compiled('#!')
LINE = compiled('[^\n]*+')

# Literals whose end a single pattern finds.
PLAIN_LITERAL = compiled(
    r'[bc]?"[^"\\]*+(?:\\.[^"\\]*+)*+"' + SUFFIX
    + r"|b?'(?:[^\\]'|\\.[^'\n]*+')" + SUFFIX
    + '|0[xob]' + CONTINUE + '*+'
    + r'|[0-9][0-9_]*+(?:\.(?!\.|' + START + r')[0-9_]*+)?+(?:[eE][-+]?_*+[0-9][0-9_]*+)?+' + SUFFIX)
RAW_OPENER = compiled('(?:r|br|cr)(#*+)"')
AFTER_RAW = compiled(SUFFIX)
OPENER = compiled('[bc]?"|b?\'')
OTHER = compiled(
    '(?P<raw_identifier>r#' + WORD + ')|(?P<word>' + WORD + ')'
    + "|(?P<lifetime>'(?:r#(?=" + START + '))?+' + WORD + "(?!'))"
    + '|(?P<doc>//[^\n]*+)')
# A quote at which no other token begins, and where it ends: an identifier in quotes; a digit and the characters that continue it;
# or the text up to the next quote, if no slash and no line end comes before that quote.
BAD_QUOTE = compiled(
    "'(?:r#(?=" + START + '))?+' + WORD + "'"
    + "|'[0-9]" + CONTINUE + "*+'?+"
    + "|(?:b'|'(?![0-9]|" + START + r"))(?!\\)(?:[^'/\n\\]|\\.|\n(?='))*+'" + SUFFIX)
MARKS = frozenset('~!@#$%^&*-=+|;:,<.>?/()[]{}')


class Token(NamedTuple):
    """A token, and its byte range."""
    form: str
    lo: int
    hi: int
    text: str

    def is_literal(self):
        return self.form in ('literal', 'bad quote') or self.form == 'word' and self.text in ('true', 'false')


class CutError(NamedTuple):
    """An error that ends the lexing of a source, and its byte offset."""
    at: int
    kind: str


class Cut(NamedTuple):
    tokens: list
    error: Optional[CutError]

    def literals(self):
        return [token for token in self.tokens if token.is_literal()]


def block_end(text, at):
    """Returns the position after the block comment that begins at `at`, or None if it isn't closed."""
    depth, place = 1, at + 2
    for edge in iter(lambda: BLOCK_EDGE.search(text, place), None):
        depth += 1 if edge[0] == '/*' else -1
        place = edge.end()
        if not depth:
            return place
    return None


def after_trivia(text, at):
    """Returns the position after white space and plain comments."""
    while True:
        space = SPACE.match(text, at)
        end = space.end() if space else at
        if text.startswith('/*', end) and not DOC_BLOCK.match(text, end):
            end = block_end(text, end) or end
        if end == at:
            return at
        at = end


def after_front(text):
    """Returns the position after a byte order mark and a `#!` line for an interpreter."""
    at = 1 if text.startswith('\ufeff') else 0
    line = INTERPRETER.match(text, at)
    if line and not text.startswith('[', after_trivia(text, line.end())):
        return LINE.match(text, at).end()
    return at


def raw_end(text, opener):
    """Returns the position after a raw literal, or None if it isn't closed."""
    closer = '"' + opener[1]
    close = text.find(closer, opener.end())
    return None if close < 0 else AFTER_RAW.match(text, close + len(closer)).end()


def cut_one(text, at):
    """Returns the form and the end of the token at a position before the text's end, or an error and None."""
    if raw := RAW_OPENER.match(text, at):
        end = raw_end(text, raw)
        return ('literal', end) if end else ('unclosed quote', None)
    if literal := PLAIN_LITERAL.match(text, at):
        return 'literal', literal.end()
    # A prefix with a quote isn't an identifier, but an apostrophe after it may begin a lifetime.
    opener = OPENER.match(text, at)
    if other := None if opener and opener[0] != "'" else OTHER.match(text, at):
        return other.lastgroup, other.end()
    if opener:
        bad = BAD_QUOTE.match(text, at)
        return ('bad quote', bad.end()) if bad else ('unclosed quote', None)
    if text.startswith('/*', at):
        end = block_end(text, at)
        return ('doc', end) if end else ('unclosed block comment', None)
    return 'mark' if text[at] in MARKS else 'stray', at + 1


def cut_source(text):
    """Returns the tokens of a source, up to its end or to its first error."""
    found, at = [], after_trivia(text, after_front(text))
    while at < len(text):
        form, end = cut_one(text, at)
        if end is None:
            return in_bytes(text, found, (at, form))
        found.append((form, at, end))
        at = after_trivia(text, end)
    return in_bytes(text, found, None)


def in_bytes(text, found, error):
    """Returns the tokens with their texts, with positions in bytes instead of characters."""
    places = range(len(text) + 1) if text.isascii() else [0, *itertools.accumulate(len(c.encode()) for c in text)]
    tokens = [Token(form, places[lo], places[hi], text[lo:hi]) for form, lo, hi in found]
    return Cut(tokens, CutError(places[error[0]], error[1]) if error else None)
