"""Measures the time per setting of the package's calls in procedural macros, for inputs with few settings and with many."""
import os

from measure import build, tables

USER = os.path.join(build.TOP, 'rust/macros/user')


def lines():
    """Returns the output of the example. Its macro measures the times while it is compiled."""
    os.utime(os.path.join(USER, 'examples/growth.rs'))
    environment = {**os.environ, 'CARGO_TARGET_DIR': os.path.join(build.BUILD, 'macros')}
    printed = build.output(['cargo', 'run', '--offline', '--quiet', '--example', 'growth'], cwd=USER, env=environment)
    return [line.split('\t') for line in printed.splitlines()]


def print_table():
    note = 'Nanoseconds for each setting of a macro\'s input, which has 100 settings or 3,200, the least of 5 rounds; nothing is optimized.'
    tables.begin('Growth', ('Call', 'value', 'of 100', 'of 3200', 'times'), note)
    for call, value, few, many in lines():
        tables.row(call, value, few, many, '%.2f' % (int(many) / int(few)))
