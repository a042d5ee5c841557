"""Tables of results: a row is a line of cells separated by tabs, and its first cell is the name of the table. bench/results.tsv
has the tables of a whole run."""
import os
import sys

from measure import build

PATH = os.path.join(build.BENCH, 'results.tsv')
# The name of the table that is being printed.
table = None


def begin(title, columns, note=None):
    """Begins a table: prints a comment with the note, and a comment with the names of the columns."""
    global table
    table = title
    if note:
        print('# ' + note)
    print('# ' + '\t'.join((title, *columns)), flush=True)


def row(*cells):
    """Prints a row of the table."""
    print('\t'.join((table, *cells)), flush=True)


def stored(title):
    """Returns the cells of each stored row of a table, without the table's name."""
    if not os.path.exists(PATH):
        sys.exit('bench/run: no bench/results.tsv')
    with open(PATH, encoding='utf-8') as file:
        each = [line.rstrip('\n').split('\t') for line in file if not line.startswith('# ')]
    return [cells for name, *cells in each if name == title]


def stored_counts():
    """Returns the stored instructions per byte of each corpus and work, at the largest size first."""
    return {(corpus, work): [float(cell) for cell in cells[2:-1]] for corpus, work, *cells in stored('Instructions')}
