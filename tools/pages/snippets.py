"""Examines snippets of Rust on pages: whether they are whole items of a file, and the items and imports that they lack to be
pasted."""
import functools
import re
import sys

# Parts without code: comments, texts and characters. A lifetime is matched too, so that its quote doesn't begin a character.
NO_CODE = re.compile(
    r"""//[^\n]*|/\*.*?\*/
    |(?<!\w)b?r(?P<hashes>\#*)".*?"(?P=hashes)|(?:(?<!\w)b)?"(?:[^"\\]|\\.)*"
    |(?:(?<!\w)b)?'(?:[^'\\\n]|\\(?:x..|u\{[^}]*\}|.))'
    |(?P<life>'[A-Za-z_]\w*)""",
    re.S | re.X,
)
# The brackets of code, and the braces of a clause, in whose terms quotes are parts of names.
BRACKETS = re.compile(NO_CODE.pattern + r"|[()\[\]{}]", re.S | re.X)
OPENING, CLOSING = set("([{"), set(")]}")
BRACES = re.compile(r'"(?:[^"\\]|\\.)*"|[{}]')
# The start of an item, in column 0.
ITEM_HEAD = re.compile(
    r'#!?\[|(?:pub(?:\(crate\))? )?(?:(?:ghost )?use|unsafe|const|static|fn|struct|enum|trait|type|impl|mod)\b')
USE = re.compile(r'((?:pub(?:\(crate\))? |ghost )?use) ([^;]*);', re.S)
STRINGS = re.compile(r'"(?:\\.|[^"\\])*"', re.S)
# Traits that are imported for their method.
BY_METHOD = {'ToTokens': '.to_tokens('}
# The example in an item's documentation.
EXAMPLE = re.compile(r'```(?:rust)?\n(.*?)```', re.S)
# A line of an example with a call and its result.
VALUE = re.compile(r'^ *// (.* == .*)$', re.M)


def closing(text, at, marks=BRACKETS):
    """Returns the position after the bracket that closes the one at `at`. Strings and comments are skipped."""
    depth = 0
    for it in marks.finditer(text, at):
        depth += (it[0] in OPENING) - (it[0] in CLOSING)
        if depth == 0:
            return it.end()
    sys.exit(f'not closed: {text[at:at + 60]}')


def bare(code):
    """Returns the code without comments and white space."""
    kept = NO_CODE.sub(lambda it: '' if it[0].startswith('//') else it[0], code)
    return re.sub(r'\s+', '', kept)


@functools.cache
def blanked(code):
    """Returns the code with spaces in place of comments, so that positions stay the same."""
    return NO_CODE.sub(lambda it: ' ' * len(it[0]) if it[0].startswith('//') else it[0], code)


def whole_items(code):
    """Returns the items of a text, and the lines that belong to no item. An item begins in column 0, and ends at a line in column 0
    that ends with a brace or a semicolon, as `rt fmt` lays it out."""
    items, lines = [], []
    for line in (it.rstrip() for it in blanked(code).split('\n')):
        if not line:
            continue
        lines.append(line)
        if line[0] not in ' \t' and (line.endswith(('}', ';')) or line.startswith('#![')):
            items.append('\n'.join(lines))
            lines = []
    is_item = [bool(ITEM_HEAD.match(it)) for it in items]
    rest = [it for it, whole in zip(items, is_item) if not whole] + lines
    return [it for it, whole in zip(items, is_item) if whole], rest


def imports_of(items):
    """Returns the names that the `use` lines among items import, each with its path."""
    found = {}
    for use, path in (it.groups() for item in items for it in [USE.fullmatch(item)] if it):
        head, _, listed = path.partition('{')
        names = listed.rstrip('} \n') if listed else re.split(r'::|\.', head)[-1]
        for name in filter(None, (it.strip() for it in names.split(','))):
            last = re.split(r'::|\.', head.rstrip(':.'))[-1]
            called = last if name == 'self' else name.split(' as ')[-1]
            found[called] = bare(f'{use}{head}{name if listed else ""}'.replace('pub(crate)', ''))
    return found


def defined_in(items):
    """Returns the names of the items."""
    head = re.compile(r'(?m)^(?:pub(?:\(crate\))? )?(?:unsafe )?(?:const|static|fn|struct|enum|trait|type) (\w+)')
    return {name for it in items for name in head.findall(it)}


class Source:
    """The items of a source file, its imports and its definitions."""

    def __init__(self, code):
        items, _ = whole_items(code)
        self.items = {bare(re.sub(r'\bpub(?:\(crate\))? ', '', it)) for it in items}
        self.imports = imports_of(items)
        self.defined = defined_in(it for it in items if not USE.fullmatch(it))

    def lacks(self, items):
        """Returns the names that a snippet of these items of the file lacks, or None if the items aren't in the file."""
        body = [it for it in items if not USE.fullmatch(it)]
        if not all(bare(re.sub(r'\bpub(?:\(crate\))? ', '', it)) in self.items for it in body):
            return None
        shown = imports_of(items)
        if not all(self.imports.get(name) == path for name, path in shown.items()):
            return None
        code = ' '.join(STRINGS.sub('""', it) for it in body)
        wanted = {it for it in self.imports if is_used(it, code)} - {*shown}
        return wanted | {it for it in self.defined if is_used(it, code)} - defined_in(body)


def is_used(name, code):
    """Whether a piece of code contains the name. The name is an operator if it has placeholders for operands."""
    if '◌' in name:
        return name.strip('◌') in code
    if name in BY_METHOD and BY_METHOD[name] in code:
        return True
    return re.search(rf'(?<![\w.]){re.escape(name)}\b(?!:[^:])', code) is not None
