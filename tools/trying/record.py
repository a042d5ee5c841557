"""The record of the crates none of whose wrong bodies is proved."""
import os
import subprocess

from .crates import PARTS, lines_of
from .edits import read, write

HEAD = 'crate\tcommit\ttried\trejected\tnot_proved'
# Lines that are comments.
COMMENT = '^[[:space:]]*(--|//)'
# The parts of a crate on which the crates above it depend.
SEEN_ABOVE = ('src', 'specs')
# The files on which the verdicts for all crates depend.
COMMON = ('HANDLES',)


class Record:
    """A file with a line for each crate: the last commit at which its wrong bodies were tried, the number of them, and the number
    of those that were rejected. Git shows whether a crate has changed since then."""

    def __init__(self, crates, path):
        self.crates, self.path, self.rows = crates, path, {}
        if os.path.isfile(path):
            for line in read(path).split('\n')[1:]:
                if line:
                    name, *row = line.split('\t')
                    self.rows[name] = row

    def git(self, *words):
        return subprocess.run(['git', '-C', self.crates.top, *words], capture_output=True, text=True, check=False)

    def commit(self):
        """Returns the commit that is checked out, or None if a file other than the record differs from it."""
        path = os.path.relpath(self.path, self.crates.top)
        differs = self.git('status', '--porcelain', '--', '.', f':(exclude){path}')
        head = self.git('rev-parse', 'HEAD')
        is_clean = differs.returncode == 0 and not differs.stdout and head.returncode == 0
        return head.stdout.strip() if is_clean else None

    def holds(self, name):
        """Whether all wrong bodies of the crate were rejected at a commit, and nothing on which their verdicts depend has changed since.
        A commit that the clone doesn't have, or that isn't an ancestor, doesn't count."""
        if name not in self.rows:
            return False
        commit, tried, *counts = self.rows[name]
        if int(tried) != sum(map(int, counts)) or self.git('merge-base', '--is-ancestor', commit, 'HEAD').returncode != 0:
            return False
        below = self.crates.below(name)
        paths = [*COMMON, *[f'crates/{name}/{part}' for part in (*PARTS, 'wrong')]]
        paths += [f'crates/{it}/{part}' for it in below for part in SEEN_ABOVE]
        return self.are_unchanged(commit, paths) and self.are_lines_unchanged(commit, [*below, name])

    def has_all(self, name):
        """Whether the crate's line has all numbers. A line by the older rule lacks the last one."""
        return len(self.rows[name]) == len(HEAD.split('\t')) - 1

    def are_unchanged(self, commit, paths):
        """Whether the files at these paths are those of the commit, except for comments, without additional files."""
        others = self.git('ls-files', '--others', '--exclude-standard', '--', *paths)
        is_same = self.git('diff', '-I', COMMENT, commit, '--', *paths)
        return is_same.returncode == 0 and not is_same.stdout and others.returncode == 0 and not others.stdout

    def are_lines_unchanged(self, commit, names):
        """Whether the lines of these crates in crates.txt are those of the commit."""
        was = self.git('show', f'{commit}:crates.txt')
        lines = lines_of(was.stdout)
        return was.returncode == 0 and all(lines.get(it, '').split() == self.crates.lines[it].split() for it in names)

    def write(self, names):
        """Writes the lines of these crates, and drops the other lines."""
        rows = [[name, *self.rows[name]] for name in sorted(self.rows) if name in names]
        write(self.path, ''.join('\t'.join(row) + '\n' for row in [HEAD.split('\t'), *rows]))
