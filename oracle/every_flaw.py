#!/usr/bin/env python3
"""Writes rust/tests/every_flaw.txt, rustc's errors in literals with several flaws. The test rust/tests/every_flaw.rs compares the
package with it.

    oracle/every_flaw.py [--count N] [--seed S]      some 2 s

It generates strings with two to five flaws, and characters and bytes with one flaw, most of them with the suffix `_`. It keeps those
that show what no other one shows (`shown`). A line of the file has the literal's bytes in hexadecimal, and for each of rustc's errors the message, up to its first backtick, and the byte
range that rustc marks. The package isn't run. Broken escapes with a backslash after them are left out, because rustc treats that
backslash as the missing digit (docs/DIFFERENCES.md).
"""
import os
import random
import re

import frame
import listed
import rustc

TABLE = os.path.join(frame.TOP, 'rust/tests/every_flaw.txt')
FRONT = 'macro_rules! skip { ($($any:tt)*) => {} }\n'
GOOD = ['a', ' ', 'xyz', '0', '{', '}', '\\n', '\\\\', '\\"', "\\'", '\\t', '\\x41', '\\\n  ', '\n']
ANY_STRING = ['\\q', '\\ ', '\\%', '\\xg', '\\x1g', '\\x_', '\\\r', '\r']
CODES = ['\\uX', '\\u{}', '\\u{_1}', '\\u{1234567}', '\\u{12345678_9}', '\\u{110000}', '\\u{d800}', '\\u{D_f_f_f}', '\\u{12z', '\\u{zz}',
         '\\u{1 2}', '\\ué', '\\u{éé', '\\u{1_é']
# Escapes that are broken only because the text between the quotes ends after them.
LAST = ['\\x', '\\x1', '\\u', '\\u{', '\\u{1', '\\u{12_']
# For each text that opens a literal: its valid units in addition to those above, and its invalid units.
KINDS = {
    '"': (GOOD + ['é', '語', '\\u{e9}', '\\0'], ANY_STRING + CODES + ['\\xff', '\\x80', '\\é', '\\😀', '\\xé']),
    'b"': (GOOD + ['\\xff', '\\0'], ANY_STRING + ['é', '語', '\\u{12}', '\\u{d800}', '\\u{}', '\\u{zz', '\\uX']),
    'c"': (GOOD + ['é', '\\u{e9}', '\\xff'], ANY_STRING + CODES + ['\\0', '\\x00', '\\u{0}', '\\u{00_0}', '\0', '\\é']),
    'r"': (['a', 'é', '\\', ' ', '\\x41'], ['\r']),
    'br"': (['a', '\\', '\\q'], ['\r', 'é', '😀']),
    'cr"': (['a', 'é', '\\'], ['\r', '\0']),
    'r##"': (['a', 'é', '"', '"#'], ['\r']),
    'br#"': (['a', '"'], ['\r', '語']),
}
# Text between and after the quotes of characters and bytes. An identifier between quotes is left out, because rustc reads no suffix
# after it.
SINGLES = {
    "'": ['', "'", '\n', '\t', '\r', '+-', '- ', '" "', '\\xé', '\\xff', '\\é', '\\😀', '\\x', '\\x1', '\\u', '\\u{', '\\u{1', '\\n\\q', '+\n',
          *CODES, *ANY_STRING],
    "b'": ['', "'", '\n', '\t', '\r', 'ab', '- ', 'é', '語', '\\u{12}', '\\u{}', '\\uX', '\\xé', '\\x', '\\u', 'a\\q', *ANY_STRING],
}
SUFFIXES = ['_', '_', '_', '', '__', '_a', 'u8']


def single(source, opener):
    """Returns a character or a byte literal with a flaw, perhaps with a second flaw after it."""
    inside = source.choice(SINGLES[opener])
    more = source.choice(['', '', '', 'a', '\\q', "\\'"]) if inside not in ('', "'") and not inside.endswith(('\n', 'x', '1', 'u', '{')) else ''
    return opener + inside + more + "'" + source.choice(SUFFIXES)


def literal(source, opener):
    """Returns a literal that begins with `opener` and has two to five flaws."""
    good, bad = KINDS[opener]
    pieces = []
    flaws = source.randint(2, 5)
    last = 'r' not in opener and source.random() < .25
    for _ in range(flaws - last):
        pieces += [source.choice(good) for _ in range(source.randint(0, 2))]
        # A broken escape has no backslash after it, and a quote has no hash after it.
        pieces += [source.choice(bad), source.choice(['a', '-'])]
    if last:
        pieces.append(source.choice(LAST))
    return opener + ''.join(pieces) + '"' + '#' * opener.count('#')


def shown(text, errors):
    """Returns what a literal shows: how it opens, with its number of errors, with each message and the marked text, and with each
    message and the next one."""
    opener, data = re.match('[^"\']*["\']', text)[0], text.encode()
    messages = [message for _, _, message in errors]
    return {(opener, len(errors)), *((opener, message, data[low:high]) for low, high, message in errors),
            *((opener, *pair) for pair in zip(messages, messages[1:]))}


def write(asked, _):
    source = random.Random(asked.seed)
    openers = list(KINDS) + ['"', '"', 'b"', 'c"']
    made = {literal(source, openers[at % len(openers)]) for at in range(asked.count)}
    made |= {single(source, "b'" if at % 2 else "'") for at in range(asked.count // 2)}
    # rustc treats CR LF as a line end, and drops a CR in the white space after an escaped line end.
    literals = sorted(it for it in made if '\r\n' not in it and not listed.strict_listed(it))
    found, _ = rustc.placed(literals, 'skip!(', ');\n', FRONT)
    rows, seen = [], set()
    for text, errors in sorted(zip(literals, found), key=lambda it: -len(it[1])):
        assert all(high <= len(text.encode()) for _, high, _ in errors)
        errors = sorted({(low, high, message.split('`')[0].strip()) for low, high, message in errors})
        if not shown(text, errors) <= seen:
            seen |= shown(text, errors)
            rows.append('\t'.join([text.encode().hex(), *(f'{low}..{high} {message}' for low, high, message in errors)]) + '\n')
    with open(TABLE, 'w', encoding='utf-8') as table:
        table.writelines(sorted(rows))
    return len(rows)


if __name__ == '__main__':
    frame.run(write, __doc__, what='literals', count=320)
