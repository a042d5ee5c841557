"""Counts the instructions of each work on each corpus, with callgrind."""
import collections
import concurrent.futures

from measure import build, sources, tables

# The sizes in bytes of the corpora on which instructions are counted.
SIZES = (1_000_000, 100_000, 10_000)
# The counts of one row: the size of the corpus in bytes, and the instructions.
Count = collections.namedtuple('Count', 'bytes instructions')


def count(driver, row, size):
    """Counts the instructions of one work on one corpus of this size."""
    if row.form == 'program':
        text = sources.text(driver, size)
        return Count(len(text), sources.instructions(row.corpus, text))
    command = [driver, 'once', row.corpus, row.work, str(size)]
    instructions, printed = build.callgrind(command, tool=('--toggle-collect=measured',))
    return Count(int(printed.split()[0]), instructions)


def all_of(driver, jobs, rows, sizes):
    """Counts each row at each of the sizes. Several rows are counted at the same time."""
    with concurrent.futures.ThreadPoolExecutor(jobs) as pool:
        yield from pool.map(lambda row: [count(driver, row, size) for size in sizes], rows)


def print_table(rows, found):
    """Prints each row when it is counted, and yields it."""
    sizes = ['a byte of %d' % size for size in SIZES]
    tables.begin('Instructions', ['Corpus', 'work', 'bytes', 'instructions', *sizes, 'times a tenth'])
    for row, at in zip(rows, found):
        each = ['%.3f' % (one.instructions / one.bytes) for one in at]
        growth = '%.2f' % (at[0].instructions / at[1].instructions)
        tables.row(row.corpus, row.work, str(at[0].bytes), str(at[0].instructions), *each, growth)
        yield at
