#!/usr/bin/env python3
"""Compares the tokens of texts before and after the package rewrites literals, by rustc's own lexer.

    oracle/restyled_rustc.py FOLDER.. ..                      a quarter of an hour for 48,000 files
    oracle/restyled_rustc.py [--fixed N] [--random N] ..      some 10 s for 12,000 texts; ten minutes for all fixed ones

With FOLDERs, every Rust file below them is rewritten in two styles that have all rules, with digits in lower and in upper case. The
tokens must be the same except for literals. Each pair of literals that differ must have the same kind, value and suffix by the
model. Rewriting the result again must leave it unchanged.

Without a FOLDER, a literal is rewritten between other texts, in three editions. The fixed cases combine each text before, each literal
and each text after it, or N of these combinations at random. The random cases are N more, of two or three of these texts and a
literal. If rustc lexes the literal as a token there, `rewrite_in_context` rewrites it with each rule alone and with all rules. With
the new literal in place of the old one, rustc must lex the same tokens, and must report no error if it reported none before. Other
options: frame.py.
"""
import collections
import itertools
import random
import subprocess
import sys
import tempfile

import frame
import rustc
import style_rows
from model.literals import contents, literal
from model.style import RULES, WHOLE

EDITIONS = ('2015', '2021', '2024')
# The number of cases, and the number of files and of their bytes, that are compared at a time.
AT_ONCE, FILES = 20_000, (2_000, 8_000_000)
BEFORE = ['', 'x', 'r', 'b', 'c', 'br', 'cr', 'rb', 'r#x', "'a", "'r#a", "'static", '1', '1.', '0', '0.', '0x1', '0x1.', '1u8', '1.5', '1.5.',
          '1e5', '1e5.', '1e', '1_.', '9.', '"s"', '"s"x', "'c'", "b'c'", 'r"s"', 'r#"s"#', '"s".', "'c'.", 'x.', 'x.1.', 'r.', '..', '...',
          '..=', '.', '#', '##', 'x#', 'x #', 'r #', 'br #', 'b#', 'br#', 'cr#', "'a#", "'a #", '1#', '"s"#', '#!', '!#', '-', '/', '*', '!',
          '$', '&', ':', '::', ';', ',', '=', '=>', '<', '>', '?', '@', '|', '~', '^', '%', '+', ' ', '\n', '/**/', '//c\n', '///d\n',
          '/*!d*/', 'x ', 'r ', 'b ', "'a ", 'é', '_', 'x\u0301', '\u200e', '·']
AFTER = ['', 'x', '_', '_x', '1', '.', '..', '...', '.x', '.1', '._', '.e5', '.é', '"s"', '.r"s"', '."s"', "'c'", "'a", "'a'", "b'c'", 'r"s"',
         'r#"s"#', 'br"s"', '#', '##', '#x', '#"s"', '#"s"#', '-', '-1', '+1', '/', '/*c*/', '//c\n', '*', '!', ' ', '\n', 'e', 'e5', 'E5',
         'e+5', 'e-', 'u8', 'f32', 'b1', 'x1', 'o1', 'xF', 'F', 'é', '·', '\u0301', '\u200e', '?', '=', '=>', '::', ',', ';', '$', '&', '<',
         '>', '@', '|', '~', '^', '%', '+', ' #', ' x', ' .', ' 1', ' "s"']
PAIRS = [('(', ')'), ('[', ']'), ('{', '}'), ('(x,', ',)'), ('#[x=', ']')]
LITERALS = ['0xFF', '0xFFu8', '0xFF_u8', '0xfF_', '1_u8', '1u8', '007', '00', '1.', '0.', '1_.', '1E5', '1e+5', '1E+5f32', '1.0E5', '1000000',
            '1000000.5', '1_', '1_0', '0_', '0x_1', '0x1_', '0xF_', '0b1_', '0o7_', '1_.5', '1.5_', '1e5_', '1e_5', '0_u8', '1_f32',
            '1.5_f32', '0x1_f32', '0_x1', '00x1', '0_b1', '1e5_e6', '1.0e1_0', '1_000_0', '"\\\'"', '"a"', "'\\\"'", "b'\\\"'", 'b"\\\'"',
            'c"\\\'"', '"\\x41"', '"\\x41"x', "'\\x41'", "'\\x61'", "'\\x31'", "'\\u{5f}'", "b'\\x61'", '"\\u{0041}"', '"\\x22"', "'\\x22'",
            '"\\x27"', '"\u202e"', "'\u202e'", '"\\x2F"', '"\\x2a"', "'\\x23'", 'r"a"', 'r#"a"#', 'r##"a"##', 'r##"a"b"##', 'r#"\\"#',
            'r##"\\"##', 'r"a"x', 'r#"a"#x', 'r#"a"#_x', 'r"\u202e"', 'r#"\u202e"a"#', 'br"a"', 'br#"a"#', 'br##"\\"##', 'cr"a"', 'cr#"a"#',
            'cr##"a"b"##', 'r""', 'r#""#', '"\\x00"', 'b"\\x0a1"', '\'\\u{0_0}\'', 'c"\\u{E9}"']


# ---- rustc's tokens

def library_of(edition, folder):
    """Returns the macro library for an edition. rustc lexes a text in the edition of the macro that passes it."""
    words = ['rustc', '--edition', edition, '-O', '--crate-type', 'proc-macro', '--crate-name', 'tokens', f'{frame.HERE}/restyled/tokens.rs']
    subprocess.run([*words, '--out-dir', f'{folder}/{edition}'], check=True)
    return f'{folder}/{edition}/libtokens.so'


def cut(library, texts):
    """Returns rustc's result for each text: the tokens as words, and whether it reports an error. rustc keeps some errors to the
    end, such as one about a lifetime that begins with a digit. The last text is for these errors, which belong to no text."""
    given = frame.with_lengths([text.encode() for text in (*texts, '')])
    words = ('--edition', '2021', '-Zdeduplicate-diagnostics=no', '--error-format=short')
    out, printed = rustc.by_macros(library, b'tokens::cut!();\n', given, *words)
    answers, wrong, at = out.decode().split('\n')[:-1], set(), None
    if len(answers) != len(texts) + 1:
        sys.exit(f'{len(texts)} texts, {len(answers)} answers')
    for line in printed.decode(errors='replace').splitlines():
        if line.startswith('@'):
            at = int(line[1:])
        elif ': error' in line:
            wrong.add(at)
    return [(answer.split(' '), number in wrong) for number, answer in enumerate(answers[:-1])]


def replaced(old, new):
    """Returns the pairs of literals in which the tokens differ, or None if another token differs."""
    pairs = [(one, other) for one, other in zip(old, new) if one != other]
    if len(old) != len(new) or any(one[:1] != 'L' or other[:1] != 'L' for one, other in pairs):
        return None
    return [(bytes.fromhex(one[1:]).decode(), bytes.fromhex(other[1:]).decode()) for one, other in pairs]


# ---- whole files

def rewritten(program, style, texts):
    """Returns the sources as the package rewrites them."""
    out = frame.output_of([program, style], frame.with_lengths([text.encode() for text in texts]))
    return [bytes.fromhex(line).decode() for line in out.decode().split('\n')[:-1]]


def told(it):
    """Returns the parts of a literal that a rule must keep. A float that ends with its dot may get a zero."""
    value = contents(it)
    return it.kind, value + '0' if it.kind == 'Float' and value.endswith('.') else value, it.suffix


def is_same(old, new):
    """Whether both texts are literals of one kind, with the same value and suffix."""
    one, other = literal(old), literal(new)
    return one is not None and other is not None and told(one) == told(other)


def compare_batch(report, program, library, style, texts):
    """Compares files before and after they are rewritten in the style. Returns the pairs of literals that differ."""
    pairs = [(old, new) for old, new in zip(texts, rewritten(program, style, texts)) if old != new]
    again = rewritten(program, style, [new for _, new in pairs])
    lexed = cut(library, [text.removeprefix('\ufeff') for pair in pairs for text in pair])
    literals = set()
    for (old, new), other, (one, _), (two, _) in zip(pairs, again, lexed[::2], lexed[1::2]):
        found = [] if one == ['unread'] else replaced(one, two)
        report.agreeing['files', 'read by rustc' if one != ['unread'] else 'unread'] += 1
        report.agreeing['tokens', 'the same, or literals'] += len(one)
        if found is None or new != other:
            report.differs('another token' if found is None else 'changes once more', old.encode(), b'', new.encode())
        literals.update(found or ())
    return literals


def compare_files(asked, report, program, room):
    """Compares whole files, and the pairs of literals, each once. Returns the number of different files that are UTF-8."""
    library, literals = library_of('2021', room), set()
    datas = frame.sources_below(asked.folders, ('.rs',))
    texts = [text for text in map(frame.text_of, datas) if text is not None]
    for style, batch in itertools.product(WHOLE, frame.batches(texts, *FILES)):
        literals |= compare_batch(report, program, library, style, batch)
    for old, new in sorted(literals):
        report.judge('pairs of literals', old.encode(), True, is_same(old, new) or new)
    return len(texts)


# ---- literals between other texts

def written(program, pairs):
    """Returns, for each text before and its literal, the new texts, each with the styles that produce it."""
    rows = [(letters, *pair) for pair in pairs for letters in (*RULES, *WHOLE)]
    news = collections.defaultdict(lambda: collections.defaultdict(list))
    for (letters, *pair), answer in zip(rows, style_rows.answers_of(program, rows)):
        if answer in ('?', '~'):
            sys.exit(f'{letters} {pair}: {answer}')
        if answer not in ('=', '!'):
            news[tuple(pair)][bytes.fromhex(answer).decode()].append(letters)
    return news


def cases(dice, fixed, count):
    """Returns the cases: text before, literal and text after."""
    every = [*itertools.product(BEFORE, LITERALS, AFTER), *((before, it, after) for (before, after), it in itertools.product(PAIRS, LITERALS))]
    yield from every if fixed < 0 else dice.sample(every, fixed)
    some = lambda texts: ''.join(dice.choice(texts) for _ in range(dice.choice([1, 2, 2, 3])))
    for it in itertools.islice(filter(literal, style_rows.long_texts(dice, 2 * count)), count):
        yield some(BEFORE), it, some(AFTER)


def compare_cases(report, program, libraries, batch):
    """Compares a batch of cases."""
    news = written(program, dict.fromkeys((before, it) for before, it, _ in batch))
    asked = [(before, it, after, new, styles) for before, it, after in batch for new, styles in news[before, it].items()]
    texts = list(dict.fromkeys(text for before, it, after, new, _ in asked for text in (before + it + after, before + new + after)))
    for edition, library in libraries.items():
        found, name = dict(zip(texts, cut(library, texts))), f'edition {edition}'
        for before, it, after, new, styles in asked:
            (old, failed), (other, fails) = found[before + it + after], found[before + new + after]
            if 'L' + it.encode().hex() not in old:
                report.agreeing[name, 'no token there'] += 1
                continue
            report.compared += 1
            is_right = replaced(old, other) == [(it, new)] and not (fails and not failed)
            report.agreeing[name, 'new literals'] += is_right
            report.agreeing[name, 'new literals where rustc reports nothing of the old'] += is_right and not failed
            if not is_right:
                report.differs(f'{it!r} becomes {new!r} by {styles} in {edition}', (before + it + after).encode(), b'', (before + new + after).encode())


def compare(asked, report):
    program, count = f'{frame.helper("restyled")}/restyle', 0
    with tempfile.TemporaryDirectory() as room:
        if asked.folders:
            return compare_files(asked, report, program, room)
        libraries = {edition: library_of(edition, room) for edition in EDITIONS}
        for batch in frame.batches(cases(random.Random(asked.seed), asked.fixed, asked.random), AT_ONCE):
            count += len(batch)
            compare_cases(report, program, libraries, batch)
    return count


if __name__ == '__main__':
    frame.run(compare, __doc__, 'folders*', fixed=-1, random=200_000)
