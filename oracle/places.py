#!/usr/bin/env python3
"""Compares the package's map from the bytes of a quoted literal's value to its text with the model's lenient grammar and with rustc.

    oracle/places.py [FOLDER..] [--count N] [--formats N] [--lines PROGRAM] ..      some 2 s for 10,000 texts and 3,000 format strings

The texts are generated, or are the literals of the Rust sources below the FOLDERs. The package's results are printed by the example
`lines` of rust/, which Cargo builds, for the command `places`. A result is a JSON object in one line, whose `segments` and `places`
are null if the text isn't quoted:

  text       the bytes of the text, in hexadecimal
  segments   the segments in order, each [lo, hi, form, value]: its byte range in the text, and its value: ["T", the bytes in
             hexadecimal] for plain text, as long as possible; ["C", the code] for a character; ["B", the number] for a byte, if
             the literal's value is bytes; ["N", 0] for a segment without a value
  places     for each byte of the value (characters in UTF-8) the range [lo, hi] of the text that gives it: in plain
             text the byte, otherwise the whole segment; and at the end the position of the closing quote, twice

Each format string has one unmatched brace, which rustc marks, also after escapes. Its position must be the package's position of this
brace. If a string contains an escaped line end, rustc often marks the whole literal. These strings are counted separately.
"""
import itertools
import json
import os
import random
import re
import sys

import frame
import rustc
import texts
from model.literals import CHARACTERS, OPENERS, RAW_OPENERS, Unit, quoted
from style_rows import long_texts


# ---- the model

def opened(it):
    """Returns the text before the body of a quoted literal, and the body's characters and escapes."""
    if it.form == 'escapes':
        return OPENERS[it.kind], it.parts['units']
    return RAW_OPENERS[it.kind] + '#' * it.parts['hashes'] + '"', [Unit('itself', c, ord(c)) for c in it.parts['inside']]


def segment_of(kind, unit):
    """Returns the form and the value of a segment, and the number of bytes of its value."""
    if unit.what == 'itself':
        return 'T', unit.text.encode().hex(), len(unit.text.encode())
    if unit.what == 'break':
        return 'N', 0, 0
    is_character = kind in CHARACTERS or unit.what == 'unicode'
    return ('C', unit.code, len(chr(unit.code).encode())) if is_character else ('B', unit.code, 1)


def answer(text):
    """Returns the expected result for a text."""
    line, it = {'text': text.encode().hex(), 'segments': None, 'places': None}, quoted(text)
    if not it:
        return line
    front, units = opened(it)
    lo, segments, places = len(front), [], []
    for unit in units:
        hi = lo + len(unit.text.encode())
        form, value, size = segment_of(it.kind, unit)
        places += [[place, place + 1] for place in range(lo, hi)] if form == 'T' else [[lo, hi]] * size
        if form == 'T' and segments and segments[-1][2] == 'T':
            segments[-1][1] = hi
            segments[-1][3] += value
        else:
            segments.append([lo, hi, form, value])
        lo = hi
    return dict(line, segments=segments, places=places + [[lo, lo]])


# ---- the texts

# The pieces of format strings.
PIECES = ['a', 'é', '語', '😀', '\\n', '\\t', '\\\\', '\\"', "\\'", '\\0', '\\x41', '\\x7f', '\\u{e9}', '\\u{1F600}', '\\u{4_1}',
          '\\\n   ', '\\\n\t\n  ', '\n', '{{', '}}', ' ', 'x']
RAW_PIECES = ['a', 'é', '\\n', '語', '😀', '{{', '"x', '\n']


def format_string(source):
    """Returns a literal with one unmatched brace."""
    some = lambda pieces, most: ''.join(source.choice(pieces) for _ in range(source.randint(0, most)))
    if source.random() < .15:
        return 'r##"%s{!}"##' % some(RAW_PIECES, 6)
    return '"%s%s%s"' % (some(PIECES, 8), source.choice(('}', '{!}')), some(['a', '\\n', 'é'], 2))


# ---- the comparisons

def answers_of(program, every):
    """Returns the lines that the example `lines` prints for the command `places`. Without a program, Cargo builds the example."""
    program = program or os.path.join(frame.helper('../rust', '--example', 'lines'), 'examples/lines')
    return list(map(json.loads, frame.of_rows(program, 'places', [text.encode() for text in every])))


def compare_rustc(report, literals, answers):
    """Compares the positions of unmatched braces with rustc's."""
    found, _ = rustc.placed(literals, '    let _ = format!(', ');\n', 'fn main() {\n', '}\n')
    form = {'T': bytes.fromhex, 'C': lambda code: chr(code).encode(), 'N': lambda _: b''}
    for text, errors, its in zip(literals, found, answers):
        value, named = b''.join(form[kind](value) for _, _, kind, value in its['segments']), errors and errors[0][:2]
        brace = re.match(rb'(?:[^{}]|\{\{|\}\})*', value).end()
        # For an opening brace, rustc marks the position after it, where the text doesn't fit.
        wanted = [place[0] for place in its['places'][brace:brace + 2]]
        known = 'rustc marks the whole literal' if named == (0, len(text.encode())) else None
        report.judge('format strings', text.encode(), True, bool(named) and named[0] in wanted or (named, wanted), known)


def compare(asked, report):
    source = random.Random(asked.seed)
    every = [*itertools.islice(filter(quoted, long_texts(source, sys.maxsize)), asked.count * 8 // 10),
             *texts.literals_of(asked.folders), *(made(source) for made in (texts.random_quoted, texts.random_raw) for _ in range(asked.count // 10))]
    formats = [format_string(source) for _ in range(asked.formats)]
    answers = answers_of(asked.lines, every + formats)
    for text, its in zip(every, answers):
        report.judge('places', text.encode(), answer(text), its)
    compare_rustc(report, formats, itertools.islice(answers, len(every), None))
    return len(every) + len(formats)


if __name__ == '__main__':
    frame.run(compare, __doc__, 'folders*', count=300_000, formats=9_000, lines='')
