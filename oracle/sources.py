#!/usr/bin/env python3
"""Compares the output of rl_scan for Rust sources with rustc's own lexer, with the model and with `syn`'s own parsing code.

    oracle/sources.py PATH FOLDER.. [--jobs N] ..       half an hour for 300 MB of sources
    oracle/sources.py PATH --count N [--size N] ..      a minute with `--count 1000 --size 10000`

With FOLDERs, a process of rl_scan reads each file below them, also with options. Then each literal of these files is read by rl_rows,
by `syn`'s code with the commands text, int, float and value, and by rustc with strict. Without a FOLDER the sources are generated
(source_texts.py): hostile ones of N bytes, small ones cut off at each byte, first lines for interpreters, and random sequences of
pieces. PATH is a program with `syn`'s code, and rustc runs the macros of oracle/rustc (docs/COMPARISON.md). Other options:
frame.py.

The result for a source is a list of lines on either side: the lines of its literals, and last the line of an error, if there is
one.
"""
import bisect
import collections
import concurrent.futures
import functools
import itertools
import re
import subprocess
import unicodedata

import frame
import listed
import rustc
import source_texts
from model.sources import after_front, cut_source
from readings import syn

NOT_TEXT = b'error: input is not UTF-8'
# The number of texts, and the number of bytes of sources, that are processed at a time.
AT_ONCE = (20_000, 4_000_000)
PLACED = re.compile(rb'(\d+)\.\.(\d+) (.*)', re.S)
# The start of the error of a source as rl_scan prints it, and its start in this script, which no line of a literal has.
ERROR, ERROR_AT = re.compile(rb'^(\d+(?:\.\.|:)\d+) error: '), rb'error at \1: '
# Options with which rl_scan is run, in addition to a run that prints all lines.
WORDS = (('--lines',), ('--lines', '--no-stray', '--only', 'int,FLOAT,Verbatim'), ('--only', 'verbatim'))
# The edition for sources with prefixes that later editions reserve.
OLDER = '2018'


def front_of(data):
    """Returns the number of bytes of a source's start, which isn't passed to rustc."""
    text = data.decode()
    return len(text[:after_front(text)].encode())


def moved(lines, by):
    """Returns the lines with their positions moved forward by `by` bytes."""
    found = [PLACED.fullmatch(line) for line in lines.split(b'\n')] if lines else []
    return [b'%d..%d %s' % (int(it[1]) + by, int(it[2]) + by, listed.visible(it[3])) for it in found]


def scanned(program, words, data):
    """Returns the lines of rl_scan, with its error in the form of this script. A line is added if its exit status doesn't
    fit these lines."""
    ended = subprocess.run([program, *words], input=data, capture_output=True, check=False)
    lines, error = ended.stdout.split(b'\n'), ended.stderr
    if lines.pop() or ended.returncode != (2 if error else 0) or error and not error.endswith(b'\n'):
        return [b'ended with the status %d, and said %s' % (ended.returncode, error)]
    if re.fullmatch(rb'rl_scan: -: not UTF-8 at byte \d+\n', error):
        return [*lines, NOT_TEXT]
    return lines + ([ERROR.sub(ERROR_AT, error[:-1])] if error else [])


def line_places(data, lines):
    """Returns the lines with each position as a line and a column, from 1, counted in characters. A byte order mark at the start
    has no column."""
    begins, mark = [0, *(it.end() for it in re.finditer(b'\n', data))], '\ufeff'.encode()

    def placed(it):
        line = bisect.bisect_right(begins, int(it[2]))
        before = data[begins[line - 1]:int(it[2])].removeprefix(mark if line == 1 else b'')
        return b'%s%d:%d' % (it[1], line, len(before.decode()) + 1)
    return [re.sub(rb'\A(error at |)(\d+)\.\.\d+', placed, told) for told in lines]


def under(words, data, lines, cut):
    """Returns the expected output of rl_scan with these options, from its output without options."""
    stray = next((token for token in cut.tokens if token.form == 'stray'), None) if cut and '--no-stray' in words else None
    if stray:
        lines = [line for line in lines if PLACED.fullmatch(line) and int(PLACED.fullmatch(line)[1]) < stray.lo]
        lines.append(b'error at %d..%d: stray character' % (stray.lo, stray.lo))
    if '--only' in words:
        kinds = words[words.index('--only') + 1].lower().split(',')
        lines = [line for line in lines if not line[:1].isdigit() or line.split(b' ')[1].decode().lower() in kinds]
    return line_places(data, lines) if '--lines' in words else lines


def all_listed(data, their, our):
    """Returns the differences of docs/DIFFERENCES.md between the lines, each with the number of its lines, or None if some line has
    no such difference, or has another position."""
    found = collections.Counter()
    if len(their) != len(our):
        return None
    for t, o in zip(their, our):
        if t == o:
            continue
        told, ours = PLACED.fullmatch(t), PLACED.fullmatch(o)
        if not told or not ours or told.groups()[:2] != ours.groups()[:2]:
            return None
        text = data[int(told[1]):int(told[2])]
        plain = listed.verbatim(text.decode())
        known = listed.listed('text', text, told[3], plain if ours[3] == listed.visible(plain) else ours[3])
        if not known:
            return None
        found[known] += 1
    return found


def cut_listed(data, edition, their, our):
    """Returns the row of docs/DIFFERENCES.md for a source that rustc accepts and lexes differently, or None."""
    text = data.decode()
    apart = next((PLACED.fullmatch(o) for t, o in zip(their + [b''], our) if t != o), None)
    if apart and data.startswith(b"'r#", int(apart[1])):
        return 'a raw lifetime right before a quote: a literal here'
    if edition == OLDER and re.search('c(?:"|r#*")', text):
        return 'edition %s, in which c"a" are two tokens' % edition
    # rustc lexes a symbol directly before an identifier as a part of the identifier.
    if any(unicodedata.category(c) == 'So' and word.isidentifier() for c, word in zip(text, text[1:])):
        return 'a symbol that rustc takes into a word: a stray character here'
    return None


def told_words(words):
    """Returns rustc's message of an error, without the part about the single text."""
    words = re.split(r': (?=[a-z])|, \.\.\.', words)[0]
    words = re.sub(r'`[^`]*`', '`..`', words)
    return re.sub(r'(start of token|escape|delimitation|found|literal|emoji|digit): .*', r'\1', words)


class Sides:
    """The three sides of the comparison, and the report. The report counts sources that agree, and lines that differ."""

    def __init__(self, asked, report, older):
        """`older` is the number of rejected sources that are lexed again in an older edition."""
        self.asked, self.report, self.sources = asked, report, 0
        # For each literal's text, the line of `syn`'s parsing code.
        self.known = {}
        self.lexer, self.older = rustc.Lexer(), older
        self.before = rustc.Lexer(OLDER, self.lexer.library)

    def judge(self, side, name, data, their, our, known, by_line=True):
        """Counts a source whose lines are the same, or differ by listed differences: by those of lines, with `by_line`, or as a whole
        by the one that `known` returns. Reports any other source."""
        found = all_listed(data, their, our) if by_line and their != our else None
        if their == our or found:
            ending = our[-1].partition(b': ')[2].decode() if our and our[-1].startswith(b'error') else 'no error'
            self.report.agreeing[side, f'the same lines{" except those below" if found else ""}, {ending}'] += 1
        elif whole := known():
            found = {whole: 1}
        else:
            at = next((at for at, (t, o) in enumerate(zip(their + [b''], our + [b''])) if t != o), min(len(their), len(our)))
            placed = PLACED.match(their[at]) if at < len(their) else None
            near = data if len(data) < 300 else data[max(0, int(placed[1]) - 60):int(placed[2]) + 60] if placed else b''
            self.report.differs(f'{side}, {name}', near, b'\n'.join(their[at:at + 2]), b'\n'.join(our[at:at + 2]))
        self.report.listed.update({(side, words): number for words, number in (found or {}).items()})

    def scanned(self, datas, *words):
        """Returns the results of rl_scan, with a process for each source."""
        with concurrent.futures.ThreadPoolExecutor(self.asked.jobs) as pool:
            return list(pool.map(functools.partial(scanned, self.asked.rl_scan, words), datas))

    def cuts(self, datas):
        """Returns how the model lexes each source, or None for a source that isn't UTF-8. Asks syn's code about new literals."""
        cuts = [None if text is None else cut_source(text) for text in map(frame.text_of, datas)]
        new = dict.fromkeys(token.text for cut in cuts if cut for token in cut.literals() if token.text not in self.known)
        self.known.update({text: listed.verbatim(text) for text in new if listed.is_long_past(text)})
        asked = [text for text in new if text not in self.known]
        self.known.update(zip(asked, syn(self.asked.path, 'text', [text.encode() for text in asked]) if asked else []))
        return cuts

    def lines(self, cut):
        """Returns the model's lines of a source."""
        if cut is None:
            return [NOT_TEXT]
        out = [b'%d..%d %s' % (token.lo, token.hi, listed.visible(self.known[token.text])) for token in cut.literals()]
        return out + [b'error at %d..%d: %s' % (it.at, it.at, it.kind.encode()) for it in [cut.error] if it]

    def ours(self, datas, each):
        """Returns the results of rl_scan, or of rl_answers."""
        if each:
            return self.scanned(datas)
        answers = frame.of_rows(self.asked.rl_answers, 'source', datas)
        return [[ERROR.sub(ERROR_AT, line) for line in answer.split(b'\n')] if answer else [] for answer in answers]

    def theirs(self, datas):
        """Returns the results of rustc's own lexer: for each source its lines and the edition that accepted it, or None and the
        start of rustc's first message."""
        answers = [(None, 'not UTF-8')] * len(datas)
        asked = [at for at, data in enumerate(datas) if frame.text_of(data) is not None]
        fronts = {at: front_of(datas[at]) for at in asked}
        told = self.lexer.literals([datas[at][fronts[at]:] for at in asked])
        for at, (lines, words) in zip(asked, told):
            edition = '2021'
            if lines == b'unlexed' and self.older and 'prefix' in words:
                self.older, edition = self.older - 1, OLDER
                lines = self.before.told('sources', [datas[at][fronts[at]:]])[0][0]
            answers[at] = (None, words) if lines == b'unlexed' else (moved(lines, fronts[at]), edition)
        return answers

    def compare(self, datas, names, each=False, rustc=True):
        """Compares the results for these sources, with a process of rl_scan for each, or in bulk."""
        cuts = self.cuts(datas)
        our = self.ours(datas, each)
        others = {}

        def newer(name, data, applies=True):
            if applies and listed.newer(data.decode(errors='replace')):
                others[listed.replaced(data)] = name
                return listed.NEWER
            return None
        for name, data, cut, answer in zip(names, datas, cuts, our):
            self.sources, self.report.compared = self.sources + 1, self.report.compared + sum(line[:1].isdigit() for line in answer)
            self.judge('model', name, data, self.lines(cut), answer, lambda: newer(name, data))
        for words in WORDS if each else ():
            side, wide = 'rl_scan ' + ' '.join(words), '--no-stray' in words
            for name, data, cut, answer, lines in zip(names, datas, cuts, our, self.scanned(datas, *words)):
                self.judge(side, name, data, under(words, data, answer, cut), lines, lambda: newer(name, data, wide), by_line=False)
        for name, data, (their, edition), answer in zip(names, datas, self.theirs(datas) if rustc else (), our):
            if their is None:
                self.report.agreeing['rustc', 'rejected: ' + told_words(edition)] += 1
            else:
                self.judge('rustc, edition ' + edition, name, data, their, answer, lambda: cut_listed(data, edition, their, answer))
        if others:
            self.compare([*others], [*others.values()], each, rustc=False)

    def compare_front(self, text):
        """Compares a first line, which rustc may treat as a line for an interpreter. An attribute in the first line would remove the
        crate and with it the macro, so that there is no result."""
        is_line = front_of(text.encode()) > len('\ufeff'.encode()) * text.startswith('\ufeff')
        first = text.partition('\n')[0] if is_line else text
        told = self.lexer.expanded((first + '\nanswers::judged!(lexes);').encode(), [b'1'])[0]
        known = 'white space that the Reference has not' if any(c in text for c in listed.OTHER_WHITE) else None
        self.report.judge('fronts', text.encode(), told == b'true\n', is_line, known)


def compare_files(asked, report):
    """Compares the results for every source below the folders, and for their literals, each once."""
    found = frame.sources_below(asked.folders)
    print('%d different files, %d bytes' % (len(found), sum(map(len, found))), flush=True)
    sides = Sides(asked, report, len(found))
    for batch in frame.batches(found, *AT_ONCE):
        sides.compare(batch, [found[data] for data in batch], each=True)
    literals = [text.encode() for text in sides.known]
    print('%d files, %d lines; %d different literals' % (sides.sources, report.compared, len(literals)), flush=True)
    for batch, command in itertools.product(frame.batches(literals), ('text', 'int', 'float', 'value', 'strict')):
        ask = functools.partial(sides.lexer.answers if command == 'strict' else functools.partial(syn, asked.path), command)
        listed.compare(report, command, batch, lambda of: (ask(of), frame.of_rows(asked.rl_rows, command, of)))
    return sides.sources


def compare_generated(asked, report):
    """Compares the results for generated sources."""
    sides, rows = Sides(asked, report, 200), dict(source_texts.long_rows(asked.size))
    for name, text in rows.items():
        sides.compare([text.encode()], [name], each=True, rustc=False)
    cuts = list(dict.fromkeys(source_texts.cuts()))
    print(f'{len(rows)} long rows, {len(cuts)} cuts', flush=True)
    sides.compare(cuts, map(str, range(len(cuts))))
    sides.compare(cuts[::7], map(str, range(0, len(cuts), 7)), each=True, rustc=False)
    for text in dict.fromkeys(front.replace('[a]', '[cfg(any())]') for front in source_texts.FRONTS):
        if text.lstrip('\ufeff').startswith('#!'):
            sides.compare_front(text)
    seen = set()
    for batch in frame.batches(source_texts.soups(asked.seed, asked.count), *AT_ONCE):
        fresh = frame.fresh(batch, seen)
        sides.known.clear()
        sides.compare(fresh, itertools.repeat(''))
    print(f'{len(seen)} soups', flush=True)
    return sides.sources


def compare(asked, report):
    return compare_files(asked, report) if asked.folders else compare_generated(asked, report)


if __name__ == '__main__':
    frame.run(compare, __doc__, 'path', 'folders*', what='sources', ours=['rl_rows', 'rl_answers', 'rl_scan'], count=500_000, size=1_000_000,
              jobs=2)
