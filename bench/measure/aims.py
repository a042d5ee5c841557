"""The aims for the package's speed in comparison with other libraries, and whether they are met."""
from measure import build, counts, tables

# A work of the package, the compared work of another library, and the factor by which the package may exceed its instructions.
AIMS = (('package', 'litrs', 1.0), ('rl_scan', 'proc-macro2', 1 / 3))
# The factor in code without optimization, and the size in bytes of its corpora.
UNOPTIMIZED, SIZE = 1.2, 10_000


def print_table(rows, found):
    taken = {(row.corpus, row.work): whole.instructions / whole.bytes for row, (whole, *_) in zip(rows, found)}
    tables.begin('Aims', ('Corpus', 'work', 'a byte', 'beside', 'a byte', 'times', 'aim', 'met'))
    lines = met = 0
    for (corpus, work), ours in taken.items():
        for aimed, beside, most in AIMS:
            if work == aimed and (theirs := taken.get((corpus, beside))):
                good = ours <= most * theirs
                lines, met = lines + 1, met + good
                tables.row(corpus, work, f'{ours:.1f}', beside, f'{theirs:.1f}', f'{ours / theirs:.2f}', f'{most:.2f}', 'yes' if good else 'no')
    print(f'# {met} of {lines} aims are met.', flush=True)


def print_unoptimized(oracle, jobs, chosen):
    """Counts the works of the package and of litrs without optimization, as Cargo builds procedural macros."""
    driver = build.driver(oracle, 'dev')
    rows = [row for row in build.rows(driver) if row in chosen and row.form == 'literals' and row.work in ('package', 'litrs')]
    found = {(row.corpus, row.work): one for row, (one,) in zip(rows, counts.all_of(driver, jobs, rows, [SIZE]))}
    tables.begin('Unoptimized', ('Corpus', 'package', 'litrs', 'times', 'aim', 'met'))
    for corpus, work in found:
        if work == 'package':
            ours, theirs = (found[corpus, work].instructions / found[corpus, work].bytes for work in ('package', 'litrs'))
            good = 'yes' if ours <= UNOPTIMIZED * theirs else 'no'
            tables.row(corpus, f'{ours:.1f}', f'{theirs:.1f}', f'{ours / theirs:.2f}', f'{UNOPTIMIZED:.2f}', good)
