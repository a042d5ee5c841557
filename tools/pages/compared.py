"""The table of comparisons of docs/COMPARISON.md, from oracle/compared.tsv."""
import re

from .items import read

PAGE, HEAD = 'docs/COMPARISON.md', '| Compared | With | Comparisons | Explained | Date |\n|---|---|---|---|---|\n'


def rows():
    """Iterates over the rows of the table."""
    for line in read('oracle/compared.tsv').splitlines():
        if not line.startswith('#'):
            _, compared, other, _, count, found, _, date, _ = line.split('\t')
            explained = re.search(r'; (\d+) explained', found)
            yield f'| {compared} | {other} | {int(count):,} | {int(explained[1]) if explained else 0:,} | {date} |\n'


def with_comparisons():
    """Returns the page with the present rows."""
    return re.sub(re.escape(HEAD) + r'(?:\|.*\n)*', lambda _: HEAD + ''.join(rows()), read(PAGE))
