"""The lines of all files, for docs/MAP.md, and those that a caller takes along, for docs/RATTLE.md."""
import collections
import re
import subprocess

from trying.crates import PARTS as FOLDERS, Crates

from .items import TOP, families, paths, read

PAGE, HEAD = 'docs/MAP.md', '| Part | Before | Now |\n|---|---|---|\n'
# The head of the table of docs/RATTLE.md.
SIZES = '| Library | Crates | Code | Definitions | Proofs |\n|---|---|---|---|---|\n'
# Each part of the repository, the start of the paths of its files, of which the first that matches counts, and its lines before
# `rl_scan` became one crate (1 December 2026, commit 20697a39c).
PARTS = [
    ('code of the crates', r'crates/\w+/src/', 42010),
    ('definitions', r'crates/\w+/specs/', 19269),
    ('proofs', r'crates/\w+/proofs/', 78826),
    ('wrong bodies', r'crates/\w+/(?:wrong|must-fail)/', 1431),
    ('stored runs and pages of the crates', 'crates/', 9396),
    ('Rust, rendered from the crates', r'rust/(?:programs/)?src/proved/', 28595),
    ('tests in Rust', r'rust/(?:tests|programs/rows|programs/tests|macros/user|macros/bad)/', 30024),
    ('other files of the Cargo packages', 'rust/', 16218),
    ('scripts', r'(?:tools|oracle|bench|\.ci)/', 12306),
    ('pages', r'docs/|\w+\.md$', 6974),
    ('other files', '', 491),
]


def counted():
    """Returns the number of lines of each part, by its name."""
    listed = subprocess.run(['git', 'ls-files', '-z'], cwd=TOP, capture_output=True, check=True).stdout.decode()
    lines = collections.Counter()
    for path in listed.split('\0')[:-1]:
        part = next(name for name, pattern, _ in PARTS if re.match(pattern, path))
        with open(f'{TOP}/{path}', 'rb') as file:
            lines[part] += file.read().count(b'\n')
    return lines


def table():
    """Returns the rows of the table."""
    lines = counted()
    rows = [(name, before, lines[name]) for name, _, before in PARTS]
    rows.append(('all', sum(it[1] for it in rows), lines.total()))
    return ''.join(f'| {name} | {before:,} | {now:,} |\n' for name, before, now in rows)


def with_rows(page, head, rows):
    """Returns the page with these rows below the head of a table, or as it is if each number of the table is right within 2 per cent."""
    old = re.search(f'(?<={re.escape(head)})(?:\\|.*\\n)*', page)
    shown, wanted = ([int(it.replace(',', '')) for it in re.findall(r'(?<=\| )[\d,]+(?= \|)', text)] for text in (old[0], rows))
    is_near = len(shown) == len(wanted) and all(abs(a - b) <= b / 50 for a, b in zip(shown, wanted))
    return page if is_near else page[:old.start()] + rows + page[old.end():]


def with_lines():
    """Returns the page with the present numbers."""
    return with_rows(read(PAGE), HEAD, table())


def with_sizes(page):
    """Returns the guide for callers with the lines of each library, together with all crates that it depends on."""
    crates, rows = Crates(TOP), ''
    lines = {(crate, part): sum(read(it).count('\n') for it in paths(f'crates/{crate}/{part}/**/*.*t'))
             for crate in crates.lines for part in FOLDERS}
    for it in families()[0] + families()[1]:
        if paths(f'crates/{it}/src/lib.rt'):
            taken = crates.with_those_below([it])
            sums = [f'{sum(lines[crate, part] for crate in taken):,}' for part in FOLDERS]
            rows += f'| `{it}` | {len(taken)} | {" | ".join(sums)} |\n'
    return with_rows(page, SIZES, rows)
