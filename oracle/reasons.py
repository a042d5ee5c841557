#!/usr/bin/env python3
"""Compares the flaws of texts that aren't tokens or have no value with the model, and their positions with rustc's first errors.

    oracle/reasons.py [--families worked,cuts,..] [--rustc] [--alone N] ..      a minute for 1,000 random texts, with --rustc ten

The texts are generated ones, and those with stored results: of rust/programs/tests/stored/texts.rs, of the rows of rl_rows, and of
the tables flaws.rows and sources.rows in rust/programs/rows/tests/calls. With --rustc, rustc lexes many texts in one source if they
leave no quote, comment or group open, and N of the others each alone; --alone sets N. A table then shows the relation of rustc's
errors to ours. Other options: frame.py.
"""
import collections
import itertools
import re
from pathlib import Path

import frame
import listed
import rustc
import texts as families
from model import flaws
from model.sources import after_trivia, cut_source
from rustc import CUT, EARLIER, kinds, short

# The commands, and the model's function that returns the line for each.
COMMANDS = {'explain': flaws.line, 'explain-value': flaws.value_line}
Flaw = collections.namedtuple('Flaw', 'kind begin low high')
# A text with one of these flaws doesn't begin a literal. So rustc lexes its start as an identifier, punctuation or a comment, and
# continues.
NO_LITERAL = ('Empty', 'NotALiteral', 'Minus', 'NoQuote', 'UnexpectedEnd')


def flaw_of(line):
    """Returns the flaw in a line of our program."""
    kind, begin, place = line.decode().split(' ')
    return Flaw(kind, int(begin), *map(int, place.split('..')))


# ---- rustc

# Messages of rustc that begin like these say that another token is at the position.
OTHER_TOKEN = re.compile('no rules expected|unknown start of token|prefix |unterminated |(unexpected|mismatched) closing delimiter')
LITERAL = re.compile(r"""[bc]?"|(?:r|br|cr)#*"|b?'|[0-9]|(?:true|false)\Z""")
UNCLOSED = re.compile('unterminated (double quote|character literal|byte constant|raw string|C string)')
# After these messages, rustc reports no error in the following text.
STOPS = re.compile('unterminated (?!unicode)|found invalid character|too many `#` symbols|.*delimiter|expected item')
LIFETIME = re.compile("'(?:r#)?[A-Za-z_\u00e9]")
# Tokens that leave something open; and words after which a hash without a quote ends rustc's lexer.
ENDING, RAW = ('(', ')', '[', ']', '{', '}', '\\'), ('r', 'br', 'cr')
RUSTC_TEXTS = 400


def leaves_nothing_open(text):
    """Whether rustc's lexer continues after the text, so that other texts can follow it in one source."""
    cut = cut_source('\n' + text)
    raw = any(one.text in RAW and other.text == '#' and one.hi == other.lo for one, other in zip(cut.tokens, cut.tokens[1:]))
    return not (cut.error or raw or re.search('r#{256}', text) or any(token.text in ENDING for token in cut.tokens))


def rustc_errors(texts):
    """Returns rustc's errors in each text: byte ranges and messages. If an error stops rustc, it is run on halves of the texts."""
    # A CR at the text's end must not be directly before the LF.
    asked = [text + ' ' * text.endswith('\r') for text in texts]
    found, told = rustc.placed(asked, 'one!{\n', '\n}\n', 'macro_rules! one { ($t:tt) => {} }\n')
    if len(texts) > 1 and any(STOPS.match(it['message']) for it in told):
        half = len(texts) // 2
        return rustc_errors(texts[:half]) + rustc_errors(texts[half:])
    return [[it for it in errors if it[0] <= len(text.encode())] for text, errors in zip(texts, found)]


def cut_before(text, flaw):
    """Returns the end of rustc's first token, if this token is all the text before the flaw, or all except its dot. Otherwise
    returns None."""
    if flaw.kind not in (*CUT, 'BasedFloat'):
        return None
    data = text.encode()
    rest = data[flaw.low:].decode()
    # Before white space `1.` is a token, and before an identifier `1` is.
    is_dot_apart = flaw.kind == 'NoFractionDigit' and after_trivia(rest, 0) == 0
    end = flaw.low - is_dot_apart
    return end if flaws.line(data[:end].decode()) == b'None' else None


def rustc_reason(text, flaw, error):
    """Returns the relation of rustc's first error in the text, or of its missing error, to our flaw, or None if the two contradict
    each other."""
    if flaw is None:
        return None if error else 'none: a token'
    begin, end, message = error or (None, None, '')
    head, kind = short(message), flaw.kind
    says_same = kind in kinds(message) or OTHER_TOKEN.match(message) and kind in (*CUT, *NO_LITERAL, 'BasedFloat', 'TwoCharacters')
    if error and says_same and begin == flaw.low:
        return 'begins at our place'
    if error and says_same and begin == flaw.begin:
        return 'begins at our piece'
    opener = len(re.match('[bc]?', text)[0])
    if error and begin in (0, opener) and end >= flaw.low - 1 and (kind in kinds(message) or kind == 'NoQuote' and head == 'prefix '):
        return 'is the whole literal'
    if error and UNCLOSED.match(message) and begin in (0, opener) and kind not in CUT:
        return 'says first that the literal is not closed'
    if kind in NO_LITERAL and not LITERAL.match(text):
        return 'is of other tokens: no literal begins the text'
    if LIFETIME.match(flaws.sketch(text)) and kind in ('TwoCharacters', 'Unclosed') and (not error or begin >= flaw.low or head == 'prefix '):
        return 'is of other tokens: a lifetime begins the text'
    if error and kind in EARLIER and flaw.low < begin and kinds(message):
        return 'comes later: no ending saves what stands before it'
    if head == 'underscore literal suffix is not allowed' and kind in CUT and begin < flaw.low:
        return 'comes earlier: a suffix is `_` alone, and might have gone on'
    end_of_first = cut_before(text, flaw)
    if end_of_first is not None and error and begin >= end_of_first:
        return 'comes later: one token is whole, and others follow'
    rest = text.encode()[end_of_first:].decode()
    if end_of_first is not None and not error and after_trivia(rest, 0) == len(rest):
        return 'none: white space and comments follow one token'
    if end_of_first is not None and not error and re.search(r'[(){}\[\]]', text):
        return 'stands elsewhere: one token is whole, and a delimiter without another follows'
    if kind == 'CarriageReturn' and listed.strict_listed(text) and (not error or begin > flaw.low):
        return 'takes a CR among the white space after an escaped line end'
    return None


def first_errors(alone, answers):
    """Returns texts with rustc's first error in each, or None. Texts that leave nothing open are lexed together, and `alone` of the
    others separately."""
    # rustc treats CR LF as LF, and accepts no NUL and no byte order mark in a token.
    chosen = [text for text in answers if not re.search('\r\n|\0|\ufeff', text) and not listed.newer(text)]
    closed = {text: None for text in chosen if leaves_nothing_open(text)}
    others = [text for text in chosen if text not in closed]
    others = others[::max(1, len(others) // max(1, alone))]
    print(f'rustc: {len(others)} texts alone', flush=True)
    for chunk in [*frame.batches(closed, RUSTC_TEXTS), *([text] for text in others)]:
        yield from ((text, min(errors, default=None)) for text, errors in zip(chunk, rustc_errors(chunk)))


def compare_rustc(report, pairs, answers):
    """Compares rustc's errors in texts with our flaws, and prints how often each reason occurs, with the kinds and messages."""
    ways = collections.Counter()
    for text, error in pairs:
        flaw = None if answers[text] == b'None' else flaw_of(answers[text])
        if reason := rustc_reason(text, flaw, error):
            ways[reason, flaw.kind if flaw else 'a token', short(error[2]) if error else ''] += 1
        else:
            report.differs('rustc', text.encode(), str(error).encode(), answers[text])
    for reason in sorted({reason for reason, _, _ in ways}):
        here = sorted((kind, words, number) for (its, kind, words), number in ways.items() if its == reason)
        print('rustc: %7d %s' % (sum(number for _, _, number in here), reason))
        print(*('    %7d %s%s' % (number, kind, ': ' + words if words else '') for kind, words, number in here), sep='\n')
    print(f'rustc: {ways.total()} texts', flush=True)


# ---- the model

def compare_model(asked, report, answers, data):
    """Compares the flaws of texts with the model's, and adds the lines of `explain` to the results."""
    texts = [text.decode() for text in data]
    for command, line_of in COMMANDS.items():
        models = [line_of(text) for text in texts]
        lines = frame.of_rows(asked.rl_answers, command, data)
        newer = [text for text, model, line in zip(texts, models, lines) if model != line and listed.newer(text)]
        for text, it, model, line in zip(texts, data, models, lines):
            report.judge(command, it, model, line, listed.NEWER if text in newer else None)
        if command == 'explain':
            answers.update(zip(texts, lines))
        if newer:
            compare_model(asked, report, {}, [listed.replaced(text.encode()) for text in newer])


def stored_texts():
    """Returns the texts with stored results. The rows of rl_rows contain their texts as hexadecimal digits."""
    yield from (text for pairs in families.STORED.values() for text, _ in pairs)
    yield from families.of_tables('flaws', 'sources')
    words = re.findall(rb'(?<![0-9a-f])(?:[0-9a-f]{2})+(?![0-9a-f])', Path(frame.TOP, 'crates/rl_rows/stdin').read_bytes())
    yield from (text for word in words if (text := frame.text_of(bytes.fromhex(word.decode()))) is not None)


def compare(asked, report):
    answers, rows = {}, frame.fresh(list(stored_texts()), set())
    print(f'stored: {len(rows)} texts')
    for _, data in itertools.chain([('', rows)], families.fresh_batches(asked, asked.families.split(','))):
        compare_model(asked, report, answers, data)
    if asked.rustc:
        compare_rustc(report, first_errors(asked.alone, answers), answers)
    return len(answers)


if __name__ == '__main__':
    frame.run(compare, __doc__, ours=['rl_answers'], count=500_000, families='worked,cuts,edits,random', alone=2_000, rustc=False)
