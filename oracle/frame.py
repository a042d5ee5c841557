"""The common parts of the comparisons: their arguments, the calls of programs with many texts at a time, and the report of
differences.

A comparison is a file beside this one. It generates texts from a seed, runs a program of this repository and another program or the
model on them, and reports each difference. Every comparison takes `--seed S`, `--show N` (differences printed) and `--row` (prints
the end of a line for oracle/compared.tsv). Most take `--count N` (generated texts). The programs of this repository are rl_rows,
rl_answers, rl_tool and rl_scan as Cargo builds them. With `--proved` they are crates/NAME/out/NAME, except rl_answers.
`--rl-scan PROGRAM` and similar options name others. The status is 0 if every difference is explained.
"""
import collections
import json
import os
import struct
import subprocess
import sys
import time
from pathlib import Path

TOP = os.path.dirname(os.path.dirname(os.path.abspath(__file__)))
HERE = os.path.join(TOP, 'oracle')
sys.path.append(os.path.join(TOP, 'tools'))

import programs  # noqa: E402

# The number of texts that a program receives at a time.
BATCH = 200_000
# The commands of rl_rows, rl_answers and reader (oracle/rustc) whose result is several lines, ended by a line with a full stop.
POINTED = ('read', 'spans', 'attr', 'source')


def run(compare, words, *places, what='texts', ours=(), **options):
    """Runs a comparison as a script. `compare` gets the arguments and the report, and returns the number of texts, whose name is
    `what`. The words, places and options are those of `programs.arguments`. `ours` names this repository's programs that the
    comparison runs."""
    options |= {**dict.fromkeys(ours, ''), 'proved': False} if ours else {}
    asked = programs.arguments(words, *places, seed=1, show=20, row=False, **options)
    for name in ours:
        setattr(asked, name, programs.chosen(name, getattr(asked, name), asked.proved))
    report = Report(asked)
    sys.exit(report.end(compare(asked, report), what))


def helper(name, *words):
    """Builds the package in the folder of this name beside this file with Cargo. Returns the folder of the built files."""
    target = os.path.join(HERE, name, 'target')
    command = ['cargo', 'build', '--quiet', '--release', '--offline', '--target-dir', target, *words]
    subprocess.run(command, cwd=os.path.join(HERE, name), env={**os.environ, 'RUSTC_BOOTSTRAP': '1'}, check=True)
    return os.path.join(target, 'release')


def output_of(command, data=b''):
    """Returns the output of a program, which must end with status 0."""
    ended = subprocess.run(command, input=data, stdout=subprocess.PIPE, check=False)
    if ended.returncode:
        sys.exit(f'{command[0]} ended with the status {ended.returncode}')
    return ended.stdout


def up_to_points(lines):
    """Splits lines into results that end with a line with a full stop, or are one line about a text that isn't UTF-8."""
    answers, begin = [], 0
    for at, line in enumerate(lines):
        if line in (b'.', b'error: input is not UTF-8'):
            answers.append(b'\n'.join(lines[begin:at]) if line == b'.' else line)
            begin = at + 1
    return answers


def answers_of(command, data, texts, is_pointed=False):
    """Returns a program's result for each of these texts, which are encoded in the data."""
    lines = output_of(command, data).split(b'\n')[:-1]
    answers = up_to_points(lines) if is_pointed else lines
    if len(answers) != len(texts):
        sys.exit(f'{len(answers)} answers of {command[0]} for {len(texts)} texts')
    return answers


def of_rows(program, word, texts):
    """Returns the results of rl_rows, or of another program with the same input, for a command."""
    return answers_of([program], ''.join(f'{word} {it.hex()}\n' for it in texts).encode(), texts, word in POINTED)


def text_of(data):
    """Returns the text, or None if it isn't UTF-8."""
    try:
        return data.decode()
    except UnicodeDecodeError:
        return None


def scanned(program, data, *words):
    """Returns the objects that rl_scan prints with `--json` and these arguments, with the data as its input."""
    out = subprocess.run([program, '--json', *words], input=data, capture_output=True, check=False).stdout
    return [json.loads(line) for line in out.splitlines()]


def with_lengths(texts):
    """Returns the texts as bytes, each after its length: four bytes, the lowest first."""
    return b''.join(struct.pack('<I', len(text)) + text for text in texts)


def batches(texts, count=BATCH, size=sys.maxsize):
    """Divides the texts into batches of at most `count` texts. A batch ends with the text that reaches `size` characters or bytes."""
    batch, room = [], size
    for text in texts:
        batch.append(text)
        room -= len(text)
        if len(batch) == count or room <= 0:
            yield batch
            batch, room = [], size
    if batch:
        yield batch


def fresh(texts, seen):
    """Returns the texts, encoded as bytes, that aren't in `seen`, each once. Adds their hashes to `seen`."""
    found = [text.encode() for text in dict.fromkeys(texts) if hash(text) not in seen]
    seen.update(map(hash, texts))
    return found


class Report:
    """The result of a comparison: the number of equal results, the differences that docs/DIFFERENCES.md lists, and the other
    differences."""

    def __init__(self, asked):
        self.asked, self.compared, self.unexplained, self.begun = asked, 0, 0, time.time()
        self.agreeing, self.listed = collections.Counter(), collections.Counter()

    def differs(self, name, data, theirs, ours):
        """Reports a difference that isn't explained."""
        self.unexplained += 1
        if self.unexplained <= self.asked.show:
            shown = [it.decode(errors='replace')[:300] for it in (data, theirs, ours)]
            print('UNEXPLAINED %s %r\n   theirs %s\n   ours   %s' % (name, *shown), flush=True)

    def judge(self, name, data, theirs, ours, known=None):
        """Counts a pair of results: as equal, as a difference with the reason `known`, or as an unexplained difference."""
        self.compared += 1
        if theirs == ours:
            self.agreeing[name, 'the same'] += 1
        elif known:
            self.listed[name, known] += 1
        else:
            self.differs(name, data, *(it if isinstance(it, bytes) else str(it).encode() for it in (theirs, ours)))

    def end(self, count, what='texts'):
        """Prints the numbers. With `--row`, prints the end of a line for oracle/compared.tsv: the texts, the numbers, the minutes, the
        date, and the last commit that changed the code. Returns the exit status."""
        for word, counts in ('agree as', self.agreeing), ('differ:', self.listed):
            for (name, kind), number in sorted(counts.items()):
                print(f'{name}: {number} {word} {kind}')
        print(f'{count} {what}, {self.compared} comparisons, {self.listed.total()} explained, {self.unexplained} unexplained')
        if self.asked.row:
            code = ['git', '-C', TOP, 'log', '-1', '--abbrev=9', '--format=%h', '--', 'crates', 'rust/src', 'rust/programs/src']
            row = f'{count} {what} (seed {self.asked.seed})', self.compared, self.unexplained, f'{(time.time() - self.begun) / 60:.1f}'
            print(*row, time.strftime('%Y-%m-%d', time.gmtime()), output_of(code).decode().strip(), sep='\t')
        return 1 if self.unexplained else 0


def sources_below(folders, endings=('.rs', '.rt')):
    """Returns the files with these endings below the folders by their contents: each contents once, with a path."""
    paths = {os.path.realpath(os.path.join(at, name)) for folder in folders for at, _, names in os.walk(folder)
             if not {'target', 'out', '.git'} & set(at.split('/')) for name in names if name.endswith(endings)}
    found = {}
    for path in filter(os.path.isfile, sorted(paths)):
        found.setdefault(Path(path).read_bytes(), path)
    return found
