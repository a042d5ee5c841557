"""Runs the commands and the texts that the pages show. tools/docs calls it with --run."""
import itertools
import os
import re
import subprocess
import tempfile

import programs

from .items import TOP, read


def commands():
    """Runs the calls of programs that the pages show, in a folder of their own. Each call is a line after `$`, with its output below
    it. Yields each call, a bool, and the call's output. The bool is true if the output is as shown."""
    found_first = dict(os.environ, PATH=f'{programs.cargo_folder()}:{os.environ["PATH"]}')
    shown = ''.join(map(read, ('README.md', 'docs/PROGRAMS.md', 'docs/DIFFERENCES.md', 'docs/ERRORS.md')))
    calls = [it for block in re.findall(r'```sh\n(\$.*?)```', shown, re.S) for it in re.split(r'^\$ ', block, flags=re.M)[1:]]
    with tempfile.TemporaryDirectory() as folder:
        for name in ('rl_tool', 'rl_scan', 'docs'):
            os.symlink(f'{TOP}/{name}', f'{folder}/{name}')
        for command, wanted in (call.split('\n', 1) for call in calls):
            ran = subprocess.run(['bash', '-c', command], cwd=folder, env=found_first, capture_output=True, check=False)
            found = ran.stdout.decode() + re.sub(r'^rl_\w+: .*\n', '', ran.stderr.decode(), flags=re.M)
            yield command, found == wanted, found


# The calls of docs/ERRORS.md that are commands of rl_rows.
COMMANDS = ('read', 'text', 'attr')
# The other calls, by the table and heading in rust/programs/rows/tests/calls that must have the row.
STORED = {
    'LitInt::new': ('numbers', 'integer'), 'LitFloat::new': ('numbers', 'real'), 'LitStr::parse': ('parsers', 'inside'),
    'read_number': ('uses', 'settings'), 'read_job': ('uses', 'jobs'), 'Attrs::number': ('attributes', 'attr_settings'),
    'LitInt': ('parsers', 'LitInt'), 'LitStr': ('parsers', 'LitStr'),
}
# A command that is sent after each row of rl_rows, and the line that it prints.
MARK, LINE = 'text', 'Verbatim "===" -\n'


def text_of(cell):
    """Returns the text in a cell: in code font, perhaps with a number of repetitions, or empty. Returns None for any other cell."""
    it = re.fullmatch(r'(?:(\d+) times )?(`+) ?(.*?) ?\2', cell)
    if it:
        return it[3].replace('\\|', '|') * int(it[1] or 1)
    return '' if cell == 'nothing' else None


def rows_of_errors():
    """Returns the rows of docs/ERRORS.md for the Rattle libraries: the call and the text, which are in the second cell, and the
    message."""
    for line in read('docs/ERRORS.md').split('\n'):
        cells = [it.strip() for it in re.split(r'(?<!\\)\|', line)[1:-1]]
        called = re.fullmatch(r'`([^`]+)`: (.*)', cells[1]) if len(cells) == 4 else None
        row = [called[1], text_of(called[2]), text_of(cells[2])] if called and called[1] in (*COMMANDS, *STORED) else [None]
        if None not in row:
            yield row


def stored_answer(call, text):
    """Returns the result that the table of a call has for a text, or nothing if it has no such row."""
    table, heading = STORED[call]
    rows = re.split(r'^# (.+)\n', read(f'rust/programs/rows/tests/calls/{table}.rows'), flags=re.M)
    for row in re.findall(r'(?:<.*\n)+(?:>.*\n)+', rows[rows.index(heading) + 1]):
        given, expected = ('\n'.join(line[2:] for line in row.split('\n') if line[:1] == mark) for mark in '<>')
        if given == text:
            return expected
    return ''


def errors():
    """Yields each call of docs/ERRORS.md, a bool, and the call's result. The bool is true if the result has the message of the page."""
    shown = list(rows_of_errors())
    rows = [it for it in shown if it[0] in COMMANDS]
    given = ''.join(f'{command} {text.encode().hex()}\n{MARK} {b"===".hex()}\n' for command, text, _ in rows)
    ran = subprocess.run([programs.cargos('rl_rows')], input=given, capture_output=True, encoding='utf-8', check=False)
    stored = [(it, stored_answer(*it[:2])) for it in shown if it[0] in STORED]
    for (call, text, message), found in [*stored, *zip(rows, ran.stdout.split(LINE))]:
        yield f'{call} {text[:60]}', message in found, found


def run_all():
    """Runs the commands and calls of the pages. Returns the exit status: 1 if a result differs."""
    different = 0
    for call, is_shown, found in itertools.chain(commands(), errors()):
        different += not is_shown
        print(f'as shown: {call}' if is_shown else f'OTHER: {call}: {found!r}', flush=True)
    print(f'{different} differences')
    return int(different > 0)
