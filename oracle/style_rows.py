#!/usr/bin/env python3
"""Compares the package's `rewrite` and `rewrite_in_context` with the model, on many literals.

    oracle/style_rows.py [--pairs N] ..      some 15 s for 100,000 pairs
    oracle/style_rows.py --write 2500        writes rust/tests/style.txt, some 10 s

A pair is a text and a style with one rule or several rules. The texts are all short ones over small alphabets, every character of
Unicode by itself and as an escape, and longer random ones, until N pairs have a literal. The package and the model must return the
same text, or both must reject it. The package must leave its own result unchanged (oracle/restyled).

A row has a style as letters (model/style.py), the text before the literal, the literal, and the rewritten literal. The three texts
are in hexadecimal. `-` is an empty style or text, `=` is an unchanged literal, and `!` is written if the text isn't a literal.
rust/tests/style.rs tests the package with the rows that `--write N` writes. They are chosen from N short texts, as many long ones,
and mistyped numbers, and test all that these texts test (`tested`).
"""
import functools
import heapq
import itertools
import os
import random
import re

import frame
from model import style as model
from model.literals import OPENERS, RAW_OPENERS, closer, literal
from texts import words

HEX = '0123456789abcdefABCDEF'
ROWS = os.path.join(frame.TOP, 'rust/tests/style.txt')
SUFFIXES = ['', 'x', 'u8', '_x', 'e1', 'b1', 'r', 'é', 'f32', 'o7', 'E', 'aB', 'F']
PIECES = ['a', ' ', '\n', "'", '"', "\\'", '\\"', '\\\\', '\\n', '\\0', '\\x41', '\\x2a', '\\x2A', '\\x27', '\\x0A', '\\x00', '\\x7F',
          '\\x7e', '\\xfF', '\\u{41}', '\\u{0000e9}', '\\u{E_9_}', '\\u{202E}', '\\u{D}', '\\u{aBcD}', '\\x09', '\\u{5c}', '\\x5C', '\\x20',
          '\\u{22}', '\\u{7f}', '\\u{141}', '\\xc1', '\\u{0_0}', '\\u{0_1_0}', '\\u{000041}', '\\\n', '\\\n \t', 'é', '\u202e', '1', 'x',
          '{', '\t', '\x00', '\x1b', '\x7f', '\x0c', '\x80', '\u200d', '\ufe0f', '\U000e0041']
# Pieces of longer texts: also line ends, the first characters of each length in UTF-8, and texts as long as vectors.
LONG_PIECES = PIECES + ['\r\n', '\\\r', '\\\r\n\r \n', '\\\n\\\n', '\\r', '\\t', '\\x01', '\\x80', '\\u{7ff}', '\\u{800}',
                        '\\u{1F_600}', '\\u{10FFFF}', '\\u{0_0_0_0_0_1__}', '\u20ac', '\U0001f600', '}', '#', '(1',
                        ')', ', ', '\x007', '\\x008', '\\x00\\x39', '\\x0A1', 'x' * 17, 'y' * 64, '\u00df' * 9]
RAW_PIECES = ['"', '"#', '#', 'a', '\\', '\n', '"##', ' ', 'é', '"#"', '\u202e', '\x1b', '\t', '\0', '\x007']
# Numbers, and digits after their last underscore: `2_32` may be meant as `2_i32`.
MISTYPED = ['0', '09', '1', '1_000', '0xA', '0o7', '0b1', '1.', '1.5', '1e5', '1.5E+1', '1e']
WIDTHS = ['8', '16', '32', '64', '128', '9', '032', '3_2']
FRONTS = ['', '', '', '#', '.', '1.', '.#', '#.', '# ', '. ', 'é', 'a', '(', '\n']
# Rules of one group exclude each other.
GROUPS = (*'uzfcanpqhri', 'xX', 'sS', 'gG', 'eE', 'dD')
# The number of texts that share a set of styles, the number of styles in a set, and the number of rows that are run at a time.
TEXTS, STYLES, AT_ONCE = 250, 3, 60_000


# ---- the texts and styles

def short_texts():
    """Returns all short texts over small alphabets, each once."""
    for front in '019':
        yield from (front + word for word in words('019_.eE+-xaF', range(5)))
    for front in '01':
        yield from (front + word for word in words('01_.eE+-', (5, 6)))
    for prefix in ('0x', '0b', '0o'):
        yield from (prefix + word for word in words('01aAF_eg', range(6)))
    yield from mistyped()
    for opener in OPENERS.values():
        for inside in words(PIECES, range(1, 2 if opener[-1] == "'" else 3)):
            yield from (opener + inside + opener[-1] + suffix for suffix in SUFFIXES)
        if opener[-1] == '"':
            yield from (opener + inside + opener[-1] for inside in words(PIECES, [3]))
    for opener, count in itertools.product(RAW_OPENERS.values(), range(5)):
        hashes = '#' * count
        yield from (f'{opener}{hashes}"{inside}"{hashes}' for inside in words(['"', '#', 'a', '\\', '\u200b', '\x1b'], range(6)))


def mistyped():
    """Returns numbers of which many may have a mistyped suffix."""
    return map(''.join, itertools.product(MISTYPED, ['', '_', '__'], WIDTHS, ['', '_', 'u8', 'x']))


def long_texts(dice, count):
    """Returns longer random texts, most of them literals."""
    some = lambda letters, length: ''.join(dice.choice(letters) for _ in range(dice.randrange(1, length)))
    for _ in range(count):
        suffix = dice.choice(SUFFIXES + [''] * 8)
        way = dice.randrange(4)
        if way == 0:
            prefix, digits = dice.choice([('0x', HEX), ('0x', HEX), ('0o', '01234567'), ('0b', '01')])
            yield prefix + some(digits + '_', 20) + suffix
        elif way == 1:
            fraction = dice.choice(['', '.', '.' + some('0123456789_', 9)])
            power = dice.choice(['', dice.choice('eE') + dice.choice(['', '+', '-']) + some('0123456789_', 6)])
            yield some('0123456789', 9) + fraction + power + suffix
        elif way == 2:
            opener = dice.choice(list(OPENERS.values()))
            units = 1 if opener[-1] == "'" else dice.randrange(9)
            yield opener + ''.join(dice.choice(LONG_PIECES) for _ in range(units)) + opener[-1] + suffix
        else:
            hashes = '#' * dice.randrange(6)
            inside = ''.join(dice.choice(RAW_PIECES) for _ in range(dice.randrange(9)))
            yield dice.choice(list(RAW_OPENERS.values())) + hashes + '"' + inside + '"' + hashes + suffix


def characters(dice):
    """Returns every character by itself in one literal, and as an escape in two literals."""
    for code in itertools.chain(range(0xd800), range(0xe000, 0x110000)):
        opener = dice.choice(['"', 'c"', "'"])
        yield opener + chr(code) + opener[-1]
        digits = '%x' % code
        yield '"\\u{%s}"' % dice.choice([digits, digits.upper(), digits.zfill(6), digits + '_'])
        yield "'\\u{%s}'" % dice.choice([digits, digits.upper(), digits.zfill(6), digits[:1] + '_' + digits[1:]])


def style(dice):
    """Returns a style with one rule, or with several."""
    if dice.random() < .25:
        return dice.choice(model.RULES)
    return ''.join(dice.choice(group) for group in GROUPS if dice.random() < .6) or '-'


def rows(texts, dice, count):
    """Returns rows of the texts, each with a number of styles and a text before it."""
    for batch in frame.batches(texts, TEXTS):
        fronts = [dice.choice(FRONTS) for _ in batch]
        for letters in (style(dice) for _ in range(count)):
            yield from ((letters, front, text) for front, text in zip(fronts, batch))


def every_row(dice):
    """Returns rows without an end."""
    yield from rows(short_texts(), dice, STYLES)
    yield from rows(characters(random.Random(0)), dice, 1)
    while True:
        yield from rows(long_texts(dice, TEXTS), dice, STYLES)


# ---- the results

def said_of(row):
    """Returns the model's result for a row."""
    letters, front, text = row
    new = model.rewrite(letters, text, front)
    return '!' if new is None else '=' if new == text else new.encode().hex()


def line_of(letters, front, text):
    """Returns the line of a row, up to its result."""
    return f'{letters} {front.encode().hex() or "-"} {text.encode().hex() or "-"}'


def answers_of(program, rows):
    """Returns the package's results for the rows."""
    return frame.output_of([program], ''.join(line_of(*row) + '\n' for row in rows).encode()).decode().split('\n')[:-1]


def cause(letters, old, after):
    """Returns the rules that may act on a quote, or on a character that may be written with a letter and has a digit after it."""
    if old.what == 'quote':
        return {*'q'} & {*letters}
    digit = old.code in (0, 9, 10, 13) and after and after.code and chr(after.code) in '0123456789'
    return {*'ni'} & {*letters} if digit else set()


def tested(letters, front, text):
    """Returns what a row tests: each letter of the style with and without an effect on this kind of literal, pairs of letters with
    an effect, the text before, each way to rewrite a character or an escape, the number of hashes, and the start, the suffix and
    the underscores of numbers."""
    it, new = literal(text), literal(model.rewrite(letters, text, front) or '')
    if it is None:
        return {('!', word) for word in (*letters, front, text[:1])}
    sort = it.kind, it.form, it.parts.get('base')
    acting = [letter for letter in letters if model.rewrite(letter, text, front) != text]
    ways = {(sort, letter, letter in acting) for letter in letters} | {(sort, front, it == new)}
    ways |= {(it.form, *pair) for pair in itertools.combinations(acting, 2)}
    if it.form == 'escapes':
        units = zip(it.parts['units'], new.parts['units'], [*it.parts['units'][1:], None])
        return ways | {(closer(it.kind), old.text, unit.text, *cause(letters, old, after)) for old, unit, after in units}
    if it.form == 'raw':
        hashes = it.parts['hashes'], new.parts.get('hashes')
        return ways | {(*hashes, front), ('raw', bool(re.search('\0[0-9]', it.parts['inside'])), *acting)}
    digits = it.parts.get('row', it.parts.get('numeral'))
    shape = digits[:1] == '0' and bool(set(digits) & set('89')), digits[-1:] == '_', model.is_mistyped(it, text)
    return ways | {(sort, letter, letter in acting, it.suffix[:1], *shape) for letter in letters if letter in 'uzsSgGf'}


def write_rows(dice, count):
    """Writes few rows that test all that `count` short texts, as many long ones, and mistyped numbers test."""
    texts = dict.fromkeys([*dice.sample(sorted(set(short_texts())), count), *long_texts(dice, count), *mistyped()])
    every = [(style(dice), dice.choice(FRONTS), text) for text in texts]
    kept, left = [], [(-len(ways), at, ways) for at, ways in enumerate(tested(*row) for row in every)]
    heapq.heapify(left)
    seen = set()
    # The next row is one that tests the most of what no kept row tests.
    while left:
        _, at, ways = heapq.heappop(left)
        ways = ways - seen
        if ways and left and -len(ways) > left[0][0]:
            heapq.heappush(left, (-len(ways), at, ways))
        elif ways:
            kept.append(every[at])
            seen |= ways
    with open(ROWS, 'w', encoding='utf-8') as file:
        file.writelines(f'{line_of(*row)} {said_of(row)}\n' for row in kept)
    return len(kept)


def compare(asked, report):
    if asked.write:
        return write_rows(random.Random(asked.seed), asked.write)
    # The same characters and escapes are rewritten many times, so their results are cached.
    model.unit = functools.lru_cache(1 << 16)(model.unit)
    source, program, literals = every_row(random.Random(asked.seed)), f'{frame.helper("restyled")}/restyle', set()
    while report.compared < asked.pairs:
        asked_rows = list(itertools.islice(source, AT_ONCE))
        for row, wanted, said in zip(asked_rows, map(said_of, asked_rows), answers_of(program, asked_rows), strict=True):
            if wanted == said == '!':
                report.agreeing['pairs', 'texts that are no literal, which are not counted'] += 1
                continue
            letters, front, text = row
            report.judge(f'{letters} after {front!r}' if wanted != said else 'pairs', text.encode(), wanted, said)
            report.agreeing['pairs', 'changed literals'] += wanted != '='
            literals.add(hash(text))
    return len(literals)


if __name__ == '__main__':
    frame.run(compare, __doc__, what='literals', pairs=10_000_000, write=0)
