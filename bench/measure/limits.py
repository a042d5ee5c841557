"""The limits of bench/limits: for each corpus and each work of the package, the instructions per byte that it may take, and the
lowest value that it had. The rows `code` are the bytes of code of the Cargo package, for each way of building."""
import os

from measure import build, builds, counts, sources

PATH = os.path.join(build.BENCH, 'limits')
HEAD = '# corpus, work, the instructions a byte that it may take, and the lowest that these were; of `code` bytes (bench/run --new-limits)\n'
# A limit is two per cent above the measured value.
ROOM = 1.02


def write(taken, rows, sizes):
    """Writes the limits again, and prints each that is above its lowest value. docs/PERFORMANCE.md has the number of these
    limits."""
    taken = {**taken, **{name: [size] for name, size in sizes.items()}}
    ours, was = {(row.corpus, row.work) for row in rows if row.whose == 'ours'} | set(sizes), read_all()
    with open(PATH, 'w') as file:
        file.write(HEAD)
        for name, found in taken.items():
            if name in ours:
                limit = round(ROOM * found[0], 3)
                lowest = min(limit, was.get(name, (limit, limit))[1])
                file.write('%s\t%s\t%.3f\t%.3f\n' % (*name, limit, lowest))
                if limit > lowest:
                    print('%s, %s: %.3f, the lowest was %.3f' % (*name, limit, lowest))
    return 0


def read_all():
    """Returns the limit of each row, and the lowest value that it had."""
    with open(PATH) as file:
        lines = [line.rstrip('\n').split('\t') for line in file if not line.startswith('# ')]
    return {(corpus, work): (float(most), float(lowest)) for corpus, work, most, lowest in lines}


def read():
    return {name: most for name, (most, _) in read_all().items()}


def check(driver, jobs, rows, corpus):
    """Prints each row of the package that exceeds its limit or has none, and each limit without a row. If `corpus` is given, only
    its rows are checked."""
    ours = [row for row in rows if row.whose == 'ours']
    most = {name: limit for name, limit in read().items() if corpus in (None, name[0])}
    if sources.CORPUS not in {row.corpus for row in rows}:
        most = {name: limit for name, limit in most.items() if name[0] not in sources.CORPORA}
    sizes = {} if corpus else builds.counted()
    idle = [name for name in most if name not in sizes and name not in {(row.corpus, row.work) for row in ours}]
    errors = ['%s, %s: a limit of no row' % name for name in idle]
    for row, (found,) in zip(ours, counts.all_of(driver, jobs, ours, counts.SIZES[:1])):
        each, limit = found.instructions / found.bytes, most.get((row.corpus, row.work))
        if limit is None:
            errors.append('%s, %s: no limit' % (row.corpus, row.work))
        elif each > limit:
            words = '%s, %s: %.3f instructions a byte, past its limit of %.3f'
            errors.append(words % (row.corpus, row.work, each, limit))
    errors += ['%s, %s: %d bytes of code, past their limit' % (*name, size) for name, size in sizes.items() if size > most.get(name, 0)]
    print('\n'.join(errors + ['%d rows, %d past their limit or without one' % (len(ours), len(errors))]))
    return 1 if errors else 0
