#!/usr/bin/env python3
"""Compares the characters that `rl_scan --invisible` finds with Unicode's table in perl.

    oracle/hidden.py [--proved] ..      some 5 s

A source contains every character once. The reported characters and their lines must be those of the table. A line has the
character's number, and its name if the character changes the direction of text. The table has the characters that are ignorable by
default, those that separate lines or paragraphs, and control characters. The marks of annotations, U+FFF9 to U+FFFB, are added.
Tab, LF and form feed don't count, since they lay out text. Each character follows a letter, which takes no variation selector, so all
variation selectors count. A character that only a newer table than perl's has is reported as a difference. For other options see
frame.py.
"""
import functools
import subprocess
import unicodedata

import frame

# A perl script that prints the code of each character in the class, one in each line.
SCRIPT = r'for (0 .. 0xd7ff, 0xe000 .. 0x10ffff) { print "$_\n" if chr =~ /%s/ }'
HIDING = r'[\p{Default_Ignorable_Code_Point}\p{Zl}\p{Zp}\p{Cc}]'
TURNING = r'\p{Bidi_Control}'
ANNOTATIONS, SELECTORS, LAYOUT = range(0xfff9, 0xfffc), range(0xfe00, 0xfe10), {0x9, 0xa, 0xc}


def codes(of):
    """Returns the codes of the characters in a class of perl."""
    return {int(line) for line in frame.output_of(['perl', '-e', SCRIPT % of]).split()}


@functools.cache
def hiding():
    """Returns the invisible and bidirectional characters, without the variation selectors from U+FE00 to U+FE0F, which printed
    literals and a style leave."""
    return frozenset(map(chr, codes(HIDING) - set(SELECTORS) - LAYOUT | set(ANNOTATIONS)))


def found_by(program, every):
    """Returns the characters that the program finds, each with its line. A letter follows each character in the source."""
    places, at = {}, 0
    for character in every:
        places[at] = character
        at += len(character.encode()) + 1
    source = ''.join(character + 'x' for character in every).encode()
    printed = subprocess.run([program, '--invisible', '--bytes', '-'], input=source, stdout=subprocess.PIPE, check=False).stdout
    found = (line.split(' ', 1) for line in printed.decode().splitlines())
    return {places[int(place.split('..')[0])]: words for place, words in found}


def compare(asked, report):
    every, turning = [chr(code) for code in (*range(0xd800), *range(0xe000, 0x110000))], codes(TURNING)
    names = {code: f' {unicodedata.name(chr(code))}' for code in turning}
    wanted = {it: f'U+{ord(it):04X}{names.get(ord(it), "")}' for it in hiding() | set(map(chr, SELECTORS))}
    found = found_by(asked.rl_scan, every)
    for it in every:
        report.judge('hidden', it.encode(), wanted.get(it), found.get(it))
    return len(every)


if __name__ == '__main__':
    frame.run(compare, __doc__, what='characters', ours=['rl_scan'])
