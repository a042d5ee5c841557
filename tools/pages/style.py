"""Checks the words and the style rules of docs/STYLE.md in comments, pages and public names."""
import re

from .items import LIBRARIES, code_files, definition_files, paths, prose_pages, public_items, read

# A public definition of specs/. Fields are indented.
DEFINED = re.compile(r'^(?:(?:abbrev|unfoldable) )?pub (?!mod |use )(?:record |data )?([\w-]+)', re.M)
# Words and beginnings of comments that docs/STYLE.md rejects, and the phrases in which words are correct.
HABITS = re.compile(
    r'\b(anew|is said|so much|so many|latter|none of the|no literals?|stands?|stood|truth values?'
    r'|faults?|refus\w+|lent|lends?|want of memory|behind)\b', re.I)
RIGHT = re.compile(r'page faults|behind a (?:pointer|list of references)|system lends memory', re.I)
BEGINNINGS = re.compile(r'(What|The same|Of)\b')
# The separator of a table's cells, and the largest number of words in a cell.
CELLS, LONGEST = re.compile(r'(?<!\\)\|'), 20


def comment_of(path, line):
    """Returns the line's comment, or the whole line of a page."""
    if path.endswith('.md'):
        return line
    mark = '--' if path.endswith('.antt') else '//'
    return line.strip().removeprefix(mark) if line.strip().startswith(mark) else ''


def prose_of(path):
    """Iterates over the paragraphs of a page, or of the comments of a source file, each with the number of its first line.
    Examples, code and addresses are left out."""
    lines, is_code = [], False
    for line in read(path).split('\n'):
        comment = comment_of(path, line).strip(' /!')
        if comment.startswith('```'):
            is_code = not is_code
        lines.append('' if is_code else comment)
    begin = 0
    for at, line in enumerate([*lines, '']):
        if not line:
            if at > begin:
                yield begin + 1, re.sub(r'``.*?``|`[^`]*`|\]\([^)]*\)|!\[[^]]*\]', '', ' '.join(lines[begin:at]))
            begin = at + 1


def habits_of(path):
    """Iterates over the rejected words of docs/STYLE.md on a page or in the comments of a file, each with the number of its
    paragraph's first line; and over the lines of a page with a cell of too many words."""
    is_page = path.endswith('.md')
    for number, prose in prose_of(path):
        if not is_page and (found := BEGINNINGS.match(prose)):
            yield number, found[0]
        yield from ((number, found[0]) for found in HABITS.finditer(RIGHT.sub('', prose)))
    for number, line in enumerate(read(path).split('\n'), 1):
        cells = CELLS.split(line)[1:-1] if is_page and line.startswith('|') else []
        if any(len(it.split()) > LONGEST for it in cells):
            yield number, f'a cell of more than {LONGEST} words'


def check_habits(tell):
    """Checks that no page and no comment has a rejected word of docs/STYLE.md. The comments are those of the crates, and those of the
    package that are written by hand."""
    package = [it for it in paths('rust/src/**/*.rs') if '/proved/' not in it]
    for path in [*prose_pages(), *code_files(), *definition_files(), *package]:
        for number, habit in habits_of(path):
            tell(f'{path}:{number}: {habit}: see docs/STYLE.md')


def check_public_names(tell):
    """Checks that no public item and no public definition has a rejected word in its name."""
    names = [(path, item.name) for crate in LIBRARIES for path, item in public_items(crate)]
    names += [(path, name) for path in paths('crates/*/specs/**/*.antt') for name in DEFINED.findall(read(path))]
    for path, name in names:
        if habit := HABITS.search(' '.join(re.findall(r'[A-Z]?[a-z]+', name))):
            tell(f'{path}: {name}: {habit[0]}: see docs/STYLE.md')
