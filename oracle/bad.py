#!/usr/bin/env python3
"""Compares the literals that `rl_scan --bad` reports with those that rustc rejects, and the text directly before literals.

    oracle/bad.py [PATH..] [--count N] ..      a minute for 3,000 generated literals; minutes for a large tree of files

1. Literals, valid and invalid: escapes, bases, exponents, suffixes, values. They are generated, and with a PATH those of its files
   are compared too. Each is in a line of its own, as `let _ = LITERAL;`. An integer without a suffix may be out of range for the
   type that rustc infers. This error isn't counted.
2. In each edition, different texts (identifiers, numbers, other literals, lifetimes, punctuation, hashes, white space, comments)
   before strings and characters. Each is in a macro call of its own, so that rustc checks only the tokens. In edition 2021, also
   the least number of a signed type after minuses, parentheses and comments, each in a statement.

rl_scan may miss a text that rustc rejects (docs/DIFFERENCES.md). The missed ones are printed and counted as explained. If rl_scan
reports a text that rustc accepts, this is a difference. For other options see frame.py.
"""
import bisect
import itertools
import random

import frame
import rustc

# The number of literals in one source.
CHUNK = 2000
QUOTED = ['"{}"', "'{}'", 'b"{}"', "b'{}'", 'c"{}"', 'r"{}"', 'br"{}"', 'r#"{}"#']
PARTS = ['a', 'é', '\\n', '\\q', '\\x41', '\\xff', '\\x4', '\\xg', '\\u{41}', '\\u{110000}', '\\u{d800}', '\\u{1234567}', '\\u41',
         '\\u{}', '\\0', '\t', ' ', '\\\n  ']
NUMBERS = ['0', '1', '12', '1_000', '0x1F', '0xff', '0b11', '0b12', '0o17', '0o18', '0x', '1.5', '1e5', '1E-5', '1e', '1.5e+', '0b1e3',
           '340282366920938463463374607431768211456', '1e400', '0x1.5', '1_', '0_', '2.0_']
SUFFIXES = ['', 'u8', 'i8', 'u16', 'i16', 'u32', 'i32', 'u64', 'i64', 'u128', 'i128', 'usize', 'isize', 'f32', 'f64', 'f16', 'f128', 'u9',
            'x', 'foo', '_', 'f', 'i', 'u', 'u08', 'U8', '_u8', 'f32_', 'é', 'u8u8']
BITS = {f'{sign}{size}': 64 if size == 'size' else size for size in (8, 16, 32, 64, 128, 'size') for sign in 'ui'}


# ---- literals

def number_near(source, bits):
    """Returns a number near the least or the greatest value of a type with this number of bits."""
    value = max(0, 2 ** (bits - source.randint(0, 1)) + source.randint(-2, 2))
    return source.choice(['{}', '0x{:x}', '0b{:b}', '0o{:o}', '0{}', '{}_']).format(value)


def float_near(source):
    """Returns a float near the least number that rounds to infinity, with its dot anywhere."""
    high, low = source.choice([(128, 103), (1024, 970)])
    digits = str(2 ** high - 2 ** low + source.randint(-2, 2))
    kept = source.choice([len(digits), len(digits), source.randint(1, len(digits))])
    dot = source.randint(1, kept)
    zeros = source.choice(['', '0', '00_'])
    power = len(digits) - dot + source.choice([0, 0, 0, 0, -1, 1])
    return (zeros + digits[:dot] + '.' + digits[dot:kept] if dot < kept else zeros + digits[:dot] + '.0') + f'e{power}'


def literal(source):
    """Returns a valid or invalid literal."""
    pick = source.random()
    if pick < .35:
        inside = ''.join(source.choice(PARTS) for _ in range(source.randint(0, 3)))
        return source.choice(QUOTED).format(inside) + source.choice(['', '', '', source.choice(SUFFIXES)])
    if pick < .7:
        return source.choice(NUMBERS) + source.choice(SUFFIXES)
    if pick < .8:
        return float_near(source) + source.choice(['', 'f32', 'f64', '_f64'])
    suffix = source.choice(list(BITS))
    return number_near(source, BITS[suffix]) + suffix


def errors_in(texts):
    """Returns rustc's errors in each literal. An error about the inferred type of a literal without a suffix is left out."""
    found, _ = rustc.placed(texts, 'let _ = ', ' ;\n', 'fn main() {\n', '}\n', primary=False)
    inferred = 'literal out of range for `i32`'
    return [[it for it in errors if it[2] != inferred or text.endswith('i32')] for text, errors in zip(texts, found)]


# ---- the text before a literal

EDITIONS = ['2015', '2018', '2021', '2024']
HEADS = ['', 'a', 'f', 'c', 'r', 'br', 'b', '_', '1', '1u8', '0x1f', '1.5', '1.5f', 'x.1f', 'x.f', "'a ", 'r#a', 'r#b ', '"a"', '"a"f',
         "'a'", "'a'f", 'r#"a"#', 'r#"a"#f', 'r"a"', "b'a'", "b'a'f", 'é', 'aé', 'éa', 'a-', '!', '=', 'a1', '1a', '1_a', '1._a', '1e5',
         '1.e', '$', 'k ', 'f ', '/**/', 'f/**/', '//\n', 'f//\n', '1e5f', 'a\u200e', '\u200ea', '\u200e1', 'A9_', 'f(', 'f\t', '1.0e+5f',
         '0b1', '0o7f', 'true', 'self', 'x#', 'r#a#', "'a#"]
HASHES = ['', '#', '##', '###']
LITERALS = ['"x"', "'x'", '"x"#', '"x"f']
# With a quote or hashes after them, these prefixes begin a different literal.
JOINED = ('r', 'br', 'b', 'c')
NEGATED = ['{}', '-{}', '- {}', '-({})', '-( ( {} ) )', '-/* c */{}', '- // c\n{}', '-\n{}', '-\n/* c */\n{}', '!{}', '({})', '[{}][0]',
           '1 + {}', '1 +\n{}', '{{ {} }}', '-{{ {} }}', 'f({})', 'f(\n{}\n)', 'f(-1i8, {})', '1i8 // c\n + {}', '1i8 /* - */ * {}',
           '-\t({})', '- (// c\n({}))', '{{ /* c */ {} }}', '-\u200e{}', '{{ // c\n{} }}']
LEAST = ['128i8', '0x80_i8', '32768i16', '2147483648i32', '9223372036854775808i64', '129i8']
FRONT = 'macro_rules! m { ($($t:tt)*) => {} }\nfn f<T>(_: T) {}\nfn main() {\n'


def cases(edition):
    """Returns the texts for an edition."""
    for head, hashes, text in itertools.product(HEADS, HASHES, LITERALS):
        if head.endswith('"f') and not hashes or head in JOINED and (text[0] == '"' or head != 'c'):
            continue
        closer = ')' if head.endswith('(') else ''
        yield f'm!{{ {head}{hashes}{text} \n{closer}}}\n'
    for form, number in itertools.product(NEGATED, LEAST if edition == '2021' else ()):
        yield f'let _ = {form.format(number)} ;\n'


def reported(program, edition, texts):
    """Returns the texts for which rl_scan reports an error. By default, rl_scan allows any suffix in a macro call."""
    ends = list(itertools.accumulate((len(text.encode()) for text in texts), initial=len(FRONT)))[1:]
    lines = frame.scanned(program, (FRONT + ''.join(texts) + '}\n').encode(), '--bad', '--edition', edition, '-')
    return {texts[bisect.bisect_right(ends, line['lo'])] for line in lines}


# ---- both

def judge(report, name, texts, ours, theirs):
    """Compares the texts that rl_scan reports with those that rustc rejects."""
    for text in texts:
        known = 'rustc rejects it, and rl_scan misses it' if text in theirs else None
        if known and text not in ours:
            print(f'missed: {name} {text!r}')
        report.judge(name, text.encode(), text in theirs, text in ours, known)
        report.agreeing[name, 'rejected by both'] += text in theirs and text in ours


def compare(asked, report):
    source, program = random.Random(asked.seed), asked.rl_scan
    made = dict.fromkeys(literal(source) for _ in range(asked.count))
    # Only texts that rl_scan lexes as one token are compared.
    made = [text for text in made if [it.get('text') for it in frame.scanned(program, f'{text} ;\n'.encode(), '-')] == [text]]
    found = [line['text'] for line in frame.scanned(program, b'', *asked.paths)] if asked.paths else []
    texts = list(dict.fromkeys(made + [text for text in found if text not in ('true', 'false')]))
    source = ''.join(text + ' ;\n' for text in texts).encode()
    ours = {line['text'] for line in frame.scanned(program, source, '--bad', '-') if 'text' in line}
    theirs = {text for chunk in frame.batches(texts, CHUNK) for text in rustc.rejected(chunk, errors_in)}
    judge(report, 'literals', texts, ours, theirs)
    for edition in EDITIONS:
        texts = list(dict.fromkeys(cases(edition)))
        theirs = rustc.rejected(texts, lambda left: rustc.placed(left, '', '', FRONT, '}\n', edition, primary=False)[0])
        judge(report, f'before, {edition}', texts, reported(program, edition, texts), theirs)
    return report.compared


if __name__ == '__main__':
    frame.run(compare, __doc__, 'paths*', ours=['rl_scan'], count=3000)
