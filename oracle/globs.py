#!/usr/bin/env python3
"""Compares the files that `rl_scan --exclude` leaves out with git's patterns.

    oracle/globs.py [--count N] ..      some 20 s for the 2,000 globs

It generates trees of files with short names, and globs over the same letters with `*`, `?`, `**` and `/`. `rl_scan --files --all
--exclude GLOB` must print the files that `git ls-files --others --exclude=GLOB` prints. If rl_scan rejects a glob because it can't
match, git must leave out no file. Globs with `!`, `[` and `\\` have another meaning in git, and aren't generated. If two asterisks
are in a longer part of a path, git's meaning differs from its manual (`a**/b` is like `**/b` after an `a`, and `***` like `**`).
Such globs are counted separately.
"""
import os
import random
import subprocess
import tempfile
from pathlib import Path

import frame

NAMES = ['a', 'b', 'ab', 'ba', 'aab', 'a.b', '.a', 'é', 'aé']
PIECES = ['a', 'b', 'é', '*', '?', '**', '/', '/', '**/', '/**', '.', '.rs', '*.rs', 'a*', '*b']
# The number of globs that are tested on one tree.
GLOBS = 100


def grow(folder, dice, depth=0):
    """Creates random files and folders."""
    for name in dice.sample(NAMES, 5):
        Path(folder, f'{name}.rs').touch()
        if depth < 3 and dice.random() < .6:
            os.mkdir(f'{folder}/{name}')
            grow(f'{folder}/{name}', dice, depth + 1)


def lines(words, folder):
    """Returns the paths that a program prints."""
    run = subprocess.run(words, cwd=folder, stdout=subprocess.PIPE, stderr=subprocess.DEVNULL, check=False)
    return {path.removeprefix(b'./') for path in run.stdout.split(b'\0')[:-1]}


def printed_of(program, glob, folder):
    """Returns the paths that rl_scan prints except those that the glob matches, or none if it rejects the glob."""
    words = [program, '--files', '-Z', '--all', '--exclude', glob]
    if subprocess.run([*words, '-q', '.'], cwd=folder, capture_output=True, check=False).stderr.endswith(b'as src or /src\n'):
        return None
    return {it for it in lines([*words, '.'], folder) if not it.startswith(b'.git/')}


def compare_on(asked, report, globs, folder):
    """Compares the globs on the files of a folder."""
    every = lines(['git', 'ls-files', '-z', '--others'], folder)
    for glob in globs:
        git = lines(['git', 'ls-files', '-z', '--others', f'--exclude={glob}'], folder)
        ours = printed_of(asked.rl_scan, glob, folder)
        report.agreeing['globs', 'rejected'] += ours is None
        ours = every if ours is None else ours
        report.agreeing['globs', 'leaving something out'] += git != every
        is_odd = any('**' in part and part != '**' for part in glob.split('/'))
        known = 'two asterisks in a longer part of a path' if is_odd else None
        report.judge('globs', glob.encode(), sorted(git), sorted(ours), known)


def compare(asked, report):
    dice = random.Random(asked.seed)
    while report.compared < asked.count:
        with tempfile.TemporaryDirectory() as folder:
            subprocess.run(['git', 'init', '--quiet', folder], check=True)
            grow(folder, dice)
            globs = dict.fromkeys(''.join(dice.choice(PIECES) for _ in range(dice.randrange(1, 6))) for _ in range(GLOBS))
            compare_on(asked, report, globs, folder)
    return report.compared


if __name__ == '__main__':
    frame.run(compare, __doc__, what='globs', ours=['rl_scan'], count=2000)
