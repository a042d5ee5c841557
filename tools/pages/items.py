"""Reads the public items of the crates, with their documentation, from the sources."""
import functools
import glob
import os
import re
from typing import NamedTuple

from .snippets import EXAMPLE, bare, blanked, closing

TOP = os.path.dirname(os.path.dirname(os.path.dirname(os.path.abspath(__file__))))
# The crates whose items are for callers.
LIBRARIES = """
    rl_tokens rl_grammar rl_quoted rust_literals rl_attributes rl_program
    rl_files rl_restyle rl_scan rl_uses""".split()


@functools.cache
def read(path):
    with open(os.path.join(TOP, path), encoding='utf-8') as it:
        return it.read()


@functools.cache
def paths(*patterns):
    return sorted({it for pattern in patterns for it in glob.glob(pattern, root_dir=TOP, recursive=True)})


def code_files(crate='*'):
    return paths(f'crates/{crate}/src/**/*.rt')


def definition_files():
    return paths('crates/*/specs/**/*.antt', 'crates/*/proofs/**/*.antt')


def pages():
    return paths('README.md', 'docs/*.md', 'crates/*/*.md')


def prose_pages():
    """Returns the pages, without those whose code Cargo compiles, or that show no code."""
    return [*pages(), 'CONTRIBUTING.md', 'rust/README.md']


class Item(NamedTuple):
    """An item of a file: its kind, its name, its documentation, its signature, and its position in the file."""
    kind: str
    name: str
    docs: str
    head: str
    at: int

    def examples(self):
        return [it for it in EXAMPLE.findall(self.docs) if bare(it)]

    def named_example(self):
        """Returns the item whose example, by the documentation, is an example of this item too."""
        found = re.search(r'example of\s+\[`([\w:]+)`\]', self.docs)
        return found[1] if found else None

    def lacks_errors(self):
        """Whether the item returns a `Result`, and its documentation has no `# Errors`."""
        returns = self.kind == 'fn' and re.search(r'->\s*(?:[\w:]+::)?Result<', self.head)
        return bool(returns) and not re.search(r'# Errors\n+\S', self.docs)


def docs_before(text, at):
    """Returns the documentation directly above a position. Attributes may be between."""
    above = re.search(r'(?:^ *(?:///|#\[).*\n)*\Z', text[:at], re.M)[0]
    return '\n'.join(re.findall(r'(?m)^ */// ?(.*)', above))


def first_sentence(docs):
    first = re.split(r'\n\n|\n#', docs.strip())[0].replace('\n', ' ')
    first = re.sub(r'\[(`[^`]*`)\](\([^)]*\)|\[[^\]]*\])?', r'\1', first)
    return re.split(r'(?<=[.;:])\s', first, maxsplit=1)[0].rstrip(';:')


class Holder(NamedTuple):
    """The block of an impl or a trait: its range, its type or trait, whether it is a trait, and whether it implements one."""
    start: int
    end: int
    name: str
    is_trait: bool
    of_trait: bool


def holders(code):
    """Returns the blocks of impls and traits."""
    head = re.compile(r'^(pub trait|impl(?:<[^\n]*?>)?) ([^\n{]*)', re.M)
    found = []
    for it in head.finditer(code):
        is_trait, of_trait = it[1] == 'pub trait', ' for ' in it[2]
        name = re.match(r'\W*(\w*)', it[2] if is_trait else re.sub(r'.* for ', '', it[2]))[1]
        found.append(Holder(it.start(), closing(code, code.find('{', it.start())), name, is_trait, of_trait))
    return found


def items_of(path):
    text = read(path)
    code = blanked(text)
    blocks = holders(code)
    found = []
    for it in re.finditer(r'(?m)^( *)(pub |)(?:const )?(fn|struct|enum|trait|type) (\w+)', code):
        within = next((b for b in blocks if b.start < it.start() < b.end), None)
        is_own = within and not within.of_trait and (within.is_trait or it[2])
        if not (is_own or (it[2] and not within)):
            continue
        end = signature_end(code, it.end())
        name = f'{within.name}::{it[4]}' if within else it[4]
        # The signature in one line.
        head = re.sub(r'([(\[]) ', r'\1', ' '.join(code[it.start(3):end].split()))
        head = re.sub(r',? ([)\]])', r'\1', head).rstrip(',')
        found.append(Item(it[3], name, docs_before(text, it.start()), head, it.start()))
        if it[3] in ('struct', 'enum') and code[end] == '{':
            found += parts_of(text, code, end, it[4])
    return found


def parts_of(text, code, at, name):
    """Iterates over the public fields of a struct, or the variants of an enum, whose brace is at `at`."""
    part = re.compile(r'^    (?:pub (\w+: [^\n]*),$|([A-Z]\w*(?:\([^)]*\))?),)', re.M)
    for it in part.finditer(code, at, closing(code, at)):
        head = it[1] or it[2]
        yield Item('part', f"{name}::{re.match('[A-Za-z0-9_]+', head)[0]}", docs_before(text, it.start()), head, it.start())


def signature_end(code, at):
    """Returns the position where the signature that contains `at` ends."""
    depth = 0
    for it in re.compile(r'->|=>|[(<>)\[\]]|[;{=]|\b(?:requires|ensures)\b').finditer(code, at):
        if it[0] in '(<[':
            depth += 1
        elif it[0] in ')>]':
            depth -= 1
        elif depth == 0 and it[0] not in ('->', '=>'):
            return it.start()
    return len(code)


def families():
    """Returns the crates that crates.txt lists: those of the core, those above it, and those for development."""
    return [re.findall(r'(?m)^\w+', part) for part in re.split(r'(?m)^#.*', read('crates.txt'))[1:]]


def core():
    return families()[0]


def inner():
    """Returns the crates that callers don't name, since the libraries re-export their items: the core, and rl_fronts."""
    return [*core(), 'rl_fronts']


def given_by(crate, file):
    """Iterates over the names that a file re-exports, by crate and module. The name is None for a whole module."""
    text = read(file)
    given = {(crate, it): None for it in re.findall(r'(?m)^pub mod (\w+);', text)}
    for owner, path, several, one in re.findall(r'pub use (\w+)((?:::\w+)*)::(?:\{([^}]*)\}|(\w+));', text):
        owner = crate if owner == 'crate' else owner
        for name in re.findall(r'\w+', several or one) if owner in [crate, *inner()] else []:
            is_module = not path and os.path.isfile(os.path.join(TOP, f'crates/{owner}/src/{name}.rt'))
            at = (owner, path[2:]) if path else (owner, name) if is_module else module_of(owner, name)
            if given.setdefault(at, None if is_module else set()) is not None:
                given[at].add(name)
    return given


def root_of(crate):
    """Returns the root file of a crate, which is a library or a program."""
    library = f'crates/{crate}/src/lib.rt'
    return library if os.path.isfile(os.path.join(TOP, library)) else f'crates/{crate}/src/main.rt'


def module_of(crate, name):
    """Returns the module whose item the root of a crate exports with this name."""
    root = read(root_of(crate))
    found = re.search(rf'pub use crate::(\w+)::(?:\{{[^}}]*)?\b{name}\b', root)
    return crate, found[1]


def modules(crate):
    """Returns the exports of a library's root, and those of the modules that it exports as a whole."""
    given = given_by(crate, root_of(crate))
    for owner, module in [at for at, names in given.items() if names is None]:
        for at, names in given_by(owner, f'crates/{owner}/src/{module}.rt').items():
            given.setdefault(at, names)
    return given


@functools.cache
def public_items(crate):
    """Iterates over the items that the library exports, each with its file. Items of inner crates that an earlier library exports
    are left out."""
    given = modules(crate)
    before = {at for it in LIBRARIES[:LIBRARIES.index(crate)] for at in modules(it)} if crate in LIBRARIES else set()
    owners = [crate, *(it for it in inner() if any(owner == it for owner, _ in given))]
    found = []
    for path in (path for owner in owners for path in code_files(owner)):
        owner, _, file = path.split('/')[1:4]
        at = owner, file.removesuffix('.rt')
        shown = {name for (its, _), names in given.items() if its == owner for name in names or ()}
        names = set() if owner != crate and at in before else given.get(at, set())
        for item in items_of(path):
            holder, _, method = item.name.partition('::')
            if names is None or holder in names or method and at not in before and holder in shown:
                found.append((path, item))
    return found
