"""Measures megabytes per second on whole sources: of this repository's programs, and of other libraries and programs."""
import collections
import os
import shutil
import sys
import tempfile

from measure import build, sources, tables

# A size above that of all files of the core library together, so that all of them are used.
ALL = 100_000_000
# The size of the corpus in bytes, and the least processor time in seconds.
Rate = collections.namedtuple('Rate', 'bytes seconds')
# The description of each work and program. All except ripgrep also check that the text is UTF-8.
WORKS = {
    'package': 'the package, `source`: cuts off each literal and reads it',
    'rl_scan': 'the program: reads each literal and prints its line',
    "rustc's lexer": 'cuts off every token, white space and comments too (of `rust-src`)',
    'proc-macro2': 'makes trees of every token (its own lexer)',
    'UTF-8': "std's test alone",
    'ripgrep': 'the program, `rg -c \'"\'`: counts the lines with a quote',
}
PROGRAMS = {'rl_scan': [sources.PATH], 'ripgrep': ['rg', '--no-config', '--count', '"', '-']}


def programs(rows):
    """Returns the installed programs, and prints a message for each other one."""
    here = {'ripgrep': shutil.which('rg'), 'rl_scan': any(row.work == 'rl_scan' for row in rows)}
    for name in PROGRAMS:
        if not here[name]:
            print("bench/run: %s isn't here: its rate is left out" % name, file=sys.stderr)
    return [name for name in PROGRAMS if here[name]]


def spent(name, cpu, path):
    """Returns the processor time of a whole run of a program on this input, in seconds."""
    command = ['taskset', '-c', str(cpu), *PROGRAMS[name]]
    streams = [(os.POSIX_SPAWN_OPEN, 0, path, os.O_RDONLY, 0),
               (os.POSIX_SPAWN_OPEN, 1, os.devnull, os.O_WRONLY, 0)]
    process = os.posix_spawnp(command[0], command, os.environ, file_actions=streams)
    _, status, usage = os.wait4(process, 0)
    if os.waitstatus_to_exitcode(status):
        sys.exit('bench/run: %s ends with an error' % name)
    return usage.ru_utime + usage.ru_stime


def one_round(driver, cpu, rows, names, path):
    """Returns the seconds of each work and each program in one round."""
    found = {}
    for row in (row for row in rows if row.form == 'source'):
        printed = build.output(['taskset', '-c', str(cpu), driver, 'time', row.corpus, row.work, str(ALL)])
        found[row.work] = int(printed.split()[2]) / 1e6
    return found | {name: spent(name, cpu, path) for name in names}


def least(driver, cpu, rounds, rows):
    """Measures in rounds, in which works and programs take turns. Returns the rate of each, the fastest first."""
    whole = sources.text(driver, ALL)
    names = programs(rows)
    with tempfile.NamedTemporaryFile() as file:
        file.write(whole)
        file.flush()
        each = [one_round(driver, cpu, rows, names, file.name) for _ in range(rounds)]
    found = {name: Rate(len(whole), min(one[name] for one in each)) for name in each[0]}
    return sorted(found.items(), key=lambda pair: pair[1].seconds)


def print_table(driver, cpu, rounds, rows):
    rows = [row for row in rows if row.corpus == sources.CORPUS]
    if not rows:
        return
    found = least(driver, cpu, rounds, rows)
    note = "On the core library's %d bytes, by processor time, the least of %d rounds in which all "
    note += 'take turns, each in a process of its own.'
    tables.begin('Rates', ('work', 'MB a second', 'ms', 'what it does'), note % (found[0][1].bytes, rounds))
    for name, (size, seconds) in found:
        tables.row(name, '%.0f' % (size / seconds / 1e6), '%.1f' % (1000 * seconds), WORKS[name])
