"""The definitions of specs/ and the types of the code, by the names that a file imports."""
import functools
import re
import textwrap
from typing import NamedTuple

from .items import code_files, first_sentence, items_of, paths, read
from .snippets import blanked, closing


class Definition(NamedTuple):
    """A definition, or a type of the code: its file, its text with its comment, and the module in which its names are looked up."""
    path: str
    text: str
    module: str


def uses_of(text):
    """Returns the names that a file imports: the module and the name in it, by the name in the file."""
    found = {}
    for module, names, one in re.findall(r'(?m)^ *(?:ghost |pub |unfoldable )*use ([\w.]+?)(?:\.\{([^}]*)\}|\.(\w+));?$', text):
        for name in (names or one).split(','):
            whole, _, own = name.strip().partition(' as ')
            found[own or whole] = module, whole
    return found


def names_of(code):
    """Returns the names that a block of a file defines, with the constructors of a type."""
    head = r"(?:(?:abbrev|unfoldable|pub|record|data) +)*([^\s:({]+)"
    if code.startswith(('mutual', 'abbrev mutual')):
        return [it for it in re.findall(rf'(?m)^  {head}', code) if it] + re.findall(r'(?m)^    (\w+) :', code)
    first = re.match(head, re.sub(r'\A(?:infix.*\n)+', '', code))[1]
    return [first, *(re.findall(r'(?m)^  (\S+) :', code) if re.search(r'(?m)^(?:pub )?data ', code) else [])]


@functools.cache
def modules():
    """Returns the modules of all crates: what each defines, by name, and what it imports."""
    found = {}
    for path in paths('crates/*/specs/**/*.antt'):
        module = 'Rattle.' + path.removeprefix('crates/').removesuffix('.antt').replace('/', '.')
        defined = {}
        for block in re.split(r'\n\n+(?=\S)', read(path)):
            code = re.sub(r'(?m)^--.*\n?', '', block)
            if code and not re.match(r'(pub |unfoldable )*(use|mod) ', code):
                it = Definition(path, block.rstrip('\n'), module)
                defined.update((name, it) for name in names_of(code))
        found[module] = defined, uses_of(read(path))
    return found


@functools.cache
def declared(crate, name):
    """Returns a type of the code: its first sentence, and its fields or variants."""
    for path in code_files(crate):
        for it in items_of(path):
            if it.kind in ('struct', 'enum') and it.name == name:
                text, code = read(path), blanked(read(path))
                end = re.compile(r'[{;]').search(code, it.at).end()
                whole = text[it.at:closing(code, end - 1) if code[end - 1] == '{' else end]
                kept = [row for row in whole.split('\n') if not re.match(r' *(//|#)', row)]
                return Definition(path, '\n'.join([f'// {first_sentence(it.docs)}', *kept]), f'Rattle.{crate}.specs')
    return None


def found_in(module, name):
    """Returns the definition that a name has in a module, or None for a name of std."""
    if type_of := re.match(r'Rattle\.(\w+)\.specs\.declared\.(?:\w+\.)*?([A-Z]\w*)\b', f'{module}.{name}'):
        return declared(type_of[1], type_of[2])
    defined, imported = modules().get(module, ({}, {}))
    if name in defined:
        return defined[name]
    return found_in(*imported[name]) if name in imported else None


def lines_of(it, length):
    """Returns a definition as few lines: its comment, and its fields or equations one after another."""
    comment = ' '.join(re.findall(r'(?m)^-- (.*)', it.text))
    code = re.sub(r'(?m)^ *(?:--|infixr? |(?:abbrev )?mutual$).*\n', '', it.text)
    code = re.sub(r'(?m)^  ', '', code) if re.search(r'(?m)^(?:abbrev )?mutual$', it.text) else code
    code = re.sub(r'(?m)^( *)(?:(?:abbrev|unfoldable|pub) )+', r'\1', code).replace(' : Type 0 where', ' where')
    # A line begins a definition, an equation, a field or a constructor, or continues the line above.
    parts = [' '.join(it.split()) for it in re.split(r'\n(?=\S|  [\w-]+ : )', code)]
    whole = '; '.join(parts).replace(' where; ', ' where ')
    return [*(['-- ' + comment] if comment else []), *textwrap.wrap(whole, length, subsequent_indent='    ', break_long_words=False)]
