"""The sections `## Contracts` of the pages CALLING.md, as in the sources: the public types of a library, its public functions with
their clauses, and the definitions of the words of the clauses."""
import functools
import re

from . import defined
from .items import (
    blanked, code_files, core, first_sentence, given_by, holders, items_of, paths, public_items, read, root_of, signature_end)
from .snippets import BRACES, closing

HEAD = '## Contracts\n'
INTRODUCTION = """
`tools/docs --write` wrote this section from the sources. [RATTLE.md](../../docs/RATTLE.md#reading-a-contract) explains the notation, and
[lists the laws](../../docs/RATTLE.md#laws-and-lemmas) of all crates. A clause without a label can't be cited by name.
"""
NAMES = re.compile(r'^( *)ghost use ([\w.]+)\.\{([^}]*)\};', re.M)
MODULE = re.compile(r'^( *)ghost use ([\w.]+) as (\w+);', re.M)
# The ghost members that state the meaning of a type or of its parser, and the impls that have them.
MEMBER = re.compile(r'^    ghost (runs|peeks|shown|appends|same|KIND|Value)(?: =|:) \{', re.M)
IMPL = re.compile(r'^(?:pub trait|impl(?:<[^\n]*?>)?(?= .* for )) (\w+)(?:<[^\n]*?>)?(?: for (\w+))?', re.M)
# The lengths of a line with a whole contract, and of the lines of a definition.
SHORT, LONG = 120, 330


def calling_pages():
    """Returns the pages with such a section, by crate."""
    return {it.split('/')[1]: it for it in paths('crates/*/CALLING.md')}


def passed_on():
    """Returns the modules of lower crates that a library re-exports as a whole."""
    return {at for crate in calling_pages() for at, names in given_by(crate, root_of(crate)).items() if names is None and at[0] != crate}


def core_items(crate):
    """Returns the items that a crate of the core exports for callers: by name at its root, or in a module that is re-exported as a
    whole."""
    exported = re.findall(r'pub use crate::(\w+)[\w:]*::(?:\{([^}]*)\}|(\w+));', read(root_of(crate)))
    named = {name: module for module, several, one in exported for name in re.findall(r'\w+', several or one)}
    passed = passed_on()
    for path in code_files(crate):
        module = path.split('/')[3].removesuffix('.rt')
        for item in items_of(path):
            owner, _, method = item.name.partition('::')
            if (crate, module) in passed or owner in named and (method or named[owner] == module):
                yield path, item


def own_items(crate):
    """Returns the items that the page of a crate quotes: those that it exports for callers, and those that it re-exports from crates
    without a page. Laws have a page of their own."""
    items = core_items(crate) if crate in core() else public_items(crate)
    with_page = {*calling_pages()} - {crate}
    return [(path, item) for path, item in items if path.split('/')[1] not in with_page and not path.endswith('/laws.rt')]


def in_braces(text, at):
    """Returns the text in the braces that open at a position, in one line without comments."""
    return ' '.join(re.sub(r'//[^\n]*', '', text[at + 1:closing(text, at, BRACES) - 1]).split())


def clauses_of(path, item):
    """Returns the clauses of a function: whether each is required or ensured, its label and its text."""
    text, code = read(path), blanked(read(path))
    head = re.compile(r'\s*(requires|ensures)\s*(\w*)\s*\{')
    found, end = [], signature_end(code, item.at)
    while it := head.match(code, end):
        end = closing(code, it.end() - 1, BRACES)
        found.append((it[1], it[2], in_braces(text, it.end() - 1)))
    return found


def is_in(name, said):
    """Whether a clause contains a name. The name is an operator if it has placeholders for operands."""
    name = name.split(' as ')[-1].strip()
    if '◌' in name:
        return all(part in said for part in name.split('◌') if part)
    return re.search(rf'(?<![\w.]){re.escape(name)}(?!\w)', said) is not None


@functools.cache
def statements():
    """Returns the statement of each law, by the law's name."""
    law = re.compile(r'^abbrev pub (\w+) : (?:\([A-Z ]+ : Type 0\) → )?Type 0\n\1[A-Z ]* =\s*((?:.+\n)+)', re.M)
    return {it[1]: ' '.join(it[2].split()) for path in paths('crates/*/specs/**/*.antt') for it in law.finditer(read(path))}


def statement(said):
    """Returns the statement of a clause that is the name of a law, or None for any other clause."""
    name = re.fullmatch(r'([A-Z]\w*)(?: [A-Z])*', said)
    return statements().get(name[1]) if name else None


def add_imports(path, at, said, needed):
    """Adds the `ghost use` lines that a clause at a position of a file needs: the names, by module."""
    text = read(path)
    blocks = [it for it in holders(blanked(text)) if it.start < at < it.end]

    def is_seen(found):
        return not found[1] or any(it.start < found.start() < it.end for it in blocks)

    for it in filter(is_seen, NAMES.finditer(text)):
        if names := {name for name in (part.strip() for part in it[3].split(',')) if name and is_in(name, said)}:
            needed.setdefault(it[2], set()).update(names)
    for it in filter(is_seen, MODULE.finditer(text)):
        if re.search(rf'(?<![\w.]){it[3]}\.', said):
            needed[f'{it[2]} as {it[3]}'] = set()


def quoted(path, item, needed):
    """Iterates over the lines that quote a function. Adds the `ghost use` lines that its clauses need."""
    yield f'/// {first_sentence(item.docs)}'
    head, lines = re.sub(r'^.*?\bfn \w+', f'fn {item.name}', item.head), []
    for sort, label, said in clauses_of(path, item):
        law = statement(said)
        lines += [f'  {sort}{" " + label if label else ""}: {said}', *([f'    = {law}'] if law else [])]
        add_imports(path, item.at, said, needed)
    is_short = len(lines) == 1 and len(head + lines[0]) <= SHORT
    yield from [head + lines[0]] if is_short else [head, *lines]


def members(path, item, needed):
    """Iterates over the ghost members of a type or a trait, a line for each impl."""
    text = read(path)
    for it in IMPL.finditer(text):
        if item.name == (it[2] or it[1]):
            end = closing(text, text.find('{', it.start()), BRACES)
            found = [(at[1], at.start(), in_braces(text, at.end() - 1)) for at in MEMBER.finditer(text, it.start(), end)]
            for _, at, said in found:
                add_imports(path, at, said, needed)
            if found:
                yield f'  ghost {it[1]}: ' + '; '.join(f'{name} {"=" if it[2] else ":"} {said}' for name, _, said in found)


def typed(path, item, parts, needed):
    """Iterates over the lines that quote a type or a trait, whose public fields or variants are `parts`."""
    head = re.sub(r'^pub ', '', ' '.join(read(path)[item.at:].partition(';')[0].split())) if item.kind == 'type' else item.head
    yield f'{head}{" { " + ", ".join(parts) + " }" if parts else ""} // {first_sentence(item.docs)}'
    for file in code_files(path.split('/')[1]):
        yield from members(file, item, needed)


def way_to(path, item):
    """Returns the path by which callers import an item: its crate, or a public module of the crate."""
    crate, module, owner = path.split('/')[1], path.split('/')[3].removesuffix('.rt'), item.name.split('::')[0]
    root = read(root_of(crate))
    is_at_root = re.search(rf'pub use crate::(?:\w+::)+(?:\{{[^}}]*)?\b{owner}\b', root)
    return crate if is_at_root or f'pub mod {module};' not in root else f'{crate}::{module}'


def section(crate):
    lines, needed, last, parts = [], {}, crate, {}
    for path, item in own_items(crate):
        owner = item.name.split('::')[0]
        if item.kind == 'part':
            parts.setdefault((path, owner), []).append(item.head)
    for path, item in own_items(crate):
        if item.kind != 'fn' and '::' in item.name:
            continue
        way = way_to(path, item)
        if way != last:
            lines.append(f'// {way}:')
        last = way
        lines += quoted(path, item, needed) if item.kind == 'fn' else typed(path, item, parts.get((path, item.name)), needed)
    words = '`ghost use` lines import the words of the contracts. Below each line are the definitions of its words:'
    return '\n'.join([HEAD + INTRODUCTION, '```text', *lines, '```', '', words, '', '```text', *imports(needed), '```', ''])


def imports(needed):
    """Iterates over the `ghost use` lines of some modules, each with the definitions of its names below it. A definition is shown once,
    also if several of its names are used."""
    seen = set()
    for module, names in sorted(needed.items(), key=lambda it: (it[0].startswith('Rattle.std'), it[0])):
        yield f'ghost use {module}{".{" + ", ".join(sorted(names)) + "}" if names else ""};'
        found = [defined.found_in(module, name.split(' as ')[0]) for name in sorted(names)]
        for it in dict.fromkeys(it for it in found if it and it.path.endswith('.antt') and it not in seen):
            seen.add(it)
            yield from defined.lines_of(it, LONG)


def as_they_are():
    """Iterates over the pages with such a section, each with its text as in the sources."""
    for crate, page in calling_pages().items():
        yield page, read(page).partition(HEAD)[0].rstrip('\n') + '\n\n' + section(crate)
