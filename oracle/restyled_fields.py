#!/usr/bin/env python3
"""Checks the rewriting of sources whose fields are numbers, with rustc.

    oracle/restyled_fields.py [--count N] ..      some 40 s for the 200 sources

The sources are generated at random: nested expressions and patterns of structs whose fields are named by numbers, with white space,
comments, doc comments and attributes between tokens where they are allowed, and with other numbers. They contain no macros.
`rl_scan --fix` rewrites each source in a style that adds underscores to all numbers above nine. The names of fields must stay
unchanged, the other numbers must change, and rustc must accept the source before and after. Other options: frame.py.
"""
import random
import re
import subprocess
import sys
import tempfile
from pathlib import Path

import frame
import rustc

FIELDS = 128
STYLE = 'decimal_groups = 1\n'
HEAD = f"""#![allow(unused, unused_doc_comments, irrefutable_let_patterns)]
#[derive(Clone, Copy)]
pub struct Row({', '.join(['pub u8'] * FIELDS)});
#[derive(Clone, Copy)]
pub struct Pair({', '.join(['pub Row'] * 12)});
"""
GAPS = ['', '', ' ', ' ', '\n', '/* a */', '// b\n', ' /*,*/', '/*{*/ ', ' //::\n', '/*/* : */*/', '\t\u200e', '// ,\n//{\n', '/***/', '////\n']
ATTRIBUTES = ['', '', '', '', '#[cfg(all())]', '#[allow(unused)] ', '#[allow(unused)]#[cfg(not(any()))]', '/// a\n', '/** : */', '/// b\n #[cfg(all())]']


# The texts for each word in upper case: values, numbers, and patterns, which may fail to match if they are open. `#10` is a number,
# `=10` the name of a field, and FIELDS:WORD some fields with that word. Without depth, a VALUE is one of SIMPLE.
SIMPLE = ['NUMBER', 'PATH', 'r . FIELD', 'r . 0']
WORDS = {
    'VALUE': [*SIMPLE, '( VALUE , #10 ) . 0', '[ VALUE , #12 ] [ 0 ]', '{ #100 ; VALUE }', '( #10 .. #20 ) . start',
              'match SIMPLE { #10 => VALUE , #12 ..= #14 => #15 , _ => 0 }',
              '( | a : u8 , b : [ u8 ; #11 ] | a ) ( VALUE , [ 0 ; #11 ] )'],
    'SIMPLE': SIMPLE, 'NUMBER': ['#0', '#7', '#10', '#99', '#128', '#255'], 'FIELD': ['=0', '=9', '=10', '=11', '=64', '=127'],
    'PATH': ['::core::primitive::u8::MAX', 'u8::MIN', 'core::primitive::u8::MAX'], 'ROW': ['Row { FIELDS:VALUE .. r }'],
    'ROW_PATTERN': ['Row { FIELDS:_ .. }'], 'OPEN_PATTERN': ['Row { FIELDS:BYTE .. }'],
    'BYTE': ['#10 | #11', '#10 ..= #200', 'NAME @ #17', '_', '_'],
    'STATEMENT': [
        'let x = ROW ;', 'let x : Pair = Pair { =10 : ROW , =3 : ROW , .. p } ;', 'let ROW_PATTERN = r ;',
        'if let Pair { =10 : OPEN_PATTERN , .. } = p { #1000 ; }', 'let #10 : u8 = ( VALUE ) else { return } ;',
        'match r { OPEN_PATTERN => #32 , _ => #64 } ;', 'let x = [ #10 , #11 , r . =10 ] ;',
        'let f = | ROW_PATTERN : Row , n : u8 | #10 ; let n : i32 = f ( ROW , #20 ) ;'],
    'FUNCTION': ['fn NAME ( ROW_PATTERN : Row , r : Row , p : Pair ) { ' + 'STATEMENT ' * 6 + '}'],
}


def expanded(chance, text, depth):
    """Iterates over the words of a text. Those in upper case are expanded, up to this depth of values in values."""
    for word in text.split():
        if word.startswith('FIELDS:'):
            for name in chance.sample(['9', '10', '11', '99', '100', str(chance.randrange(12, 99))], chance.randrange(4)):
                yield chance.choice(ATTRIBUTES)
                yield from expanded(chance, f'={name} : {word[7:]} ,', depth)
        elif word in WORDS:
            word = 'SIMPLE' if word == 'VALUE' and not depth else word
            yield from expanded(chance, chance.choice(WORDS[word]), depth - (word == 'VALUE'))
        else:
            yield word


class Source:
    """A source that is being generated: the old text, and the text that rewriting must produce."""

    def __init__(self, chance):
        self.old, self.new, self.fields, self.others, last = HEAD, HEAD, 0, 0, HEAD
        for at, word in enumerate(filter(None, expanded(chance, 'FUNCTION ' * 4, 2))):
            is_number, is_field = (word[0] == sign and word[1:].isdigit() for sign in '#=')
            text = word[1:] if is_number or is_field else f'x{at}' if word == 'NAME' else word
            self.fields, self.others = self.fields + (is_field and len(text) > 1), self.others + (is_number and len(text) > 1)
            # Identifiers are separated by white space, `::` must not follow `:` directly, and a slash must not follow a slash.
            is_apart = re.match(r'\w', text) and re.search(r'[\w.]\Z', last) or text.startswith(('::', '/')) or last.endswith('/')
            last = (chance.choice(GAPS) or (' ' if is_apart else '')) + text
            self.old += last
            self.new += last[:-len(text)] + ('_'.join(text) if is_number else text)


def tried(program, it, room):
    """Returns a description of the error for a source, or an empty text if there is none."""
    path, style = Path(room, 'source.rs'), Path(room, 'style')
    path.write_text(it.old)
    style.write_text(STYLE)
    if found := rustc.errors(it.old.encode()):
        sys.exit(f'rustc rejects what was made:\n{it.old}\n{found}')
    ended = subprocess.run([program, '--fix', '--style', style, path], capture_output=True, text=True, check=False)
    written = path.read_text()
    if ended.returncode or ended.stderr:
        return f'{program} ends with {ended.returncode}: {ended.stderr}'
    if found := rustc.errors(written.encode()):
        return f'rustc rejects what was written:\n{found}'
    pairs = zip(written.splitlines(), it.new.splitlines())
    differs = next((f'{one!r}, not {other!r}' for one, other in pairs if one != other), 'longer or shorter')
    return '' if written == it.new else differs


def compare(asked, report):
    chance = random.Random(asked.seed)
    with tempfile.TemporaryDirectory() as room:
        for _ in range(asked.count):
            it = Source(chance)
            report.agreeing['fields', 'names of two digits or more'] += it.fields
            report.agreeing['fields', 'other such numbers'] += it.others
            report.judge('sources', it.old.encode(), '', tried(asked.rl_scan, it, room))
    return asked.count


if __name__ == '__main__':
    frame.run(compare, __doc__, what='sources', ours=['rl_scan'], count=200)
