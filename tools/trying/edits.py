"""Edits of wrong bodies: the changes of a crate's files, and the functions that they change."""
import os
import re
from typing import NamedTuple

FN = re.compile(r'( *)(?:pub(?:\([^)]*\))? )?(?:const )?(?:unsafe )?(?:extern "C" )?fn (\w+)')
IMPL = re.compile(
    r"(?:unsafe )?impl(?:<.*?>)? (?:(?:\w+::)*(?P<trait>\w+)(?:<(?P<of>\w+).*?>)? for )?"
    r"(?:&(?:'\w+ )?(?:mut )?)?(?:\w+::)*(?P<type>\w+)")
# An `if` of a function, with its condition and its one or two arms.
IF = re.compile(r'(?m)^    if (?!let )([^\n{]+) \{\n((?: {8}[^\n]+\n)+)    \}(?: else \{\n((?: {8}[^\n]+\n)+)    \})?\n')
# The text that a control inserts at the start of a body, and the largest number of lines of that body.
NEEDLESS, SHORT = 'let _needless = true; ', 8


class Function(NamedTuple):
    """A function that a wrong body changes: the endings of the names by which the prover may call it, its file, and its lines. A
    change outside of all functions has no name."""
    names: tuple
    file: str
    lines: range


def read(path):
    with open(path, encoding='utf-8') as it:
        return it.read()


def write(path, text):
    with open(path, 'w', encoding='utf-8') as it:
        it.write(text)


def block(lines, pattern):
    """Returns the last line that matches and whose block isn't closed after it, with its number, or None and 0."""
    for at in range(len(lines) - 1, -1, -1):
        found = pattern.match(lines[at])
        indent = len(lines[at]) - len(lines[at].lstrip())
        if found and ' ' * indent + '}' not in lines[at + 1:]:
            return found, at + 1
    return None, 0


def function_at(crate, file, text, place):
    """Returns the function of the file's text that contains the position."""
    lines = (text[:place] + text[place:].partition('\n')[0]).split('\n')
    function, first = block(lines, FN)
    if not function:
        return Function((), file, range(0))
    while first > 1 and lines[first - 2].lstrip().startswith('#['):
        first -= 1
    every = text.split('\n')
    last = next((it for it in range(len(lines), len(every)) if every[it] == function[1] + '}'), len(every)) + 1
    within = range(first, last + 1)
    owner, _ = block(lines, IMPL) if function[1] else (None, 0)
    if owner:
        # A method is in the module of its type, which begins with a capital letter. If a trait is implemented for several types, its
        # name contains the type.
        name = owner['type'][0].upper() + owner['type'][1:] + (owner['trait'] or '')
        owners = dict.fromkeys([name, name + (owner['of'] or '')])
        return Function(tuple(f'::{it}::{function[2]}' for it in owners), file, within)
    return Function(('::'.join([crate, *modules_of(file), function[2]]),), file, within)


def modules_of(file):
    """Returns the path of a file's module below its crate."""
    return [it for it in file[len('src/'):-len('.rt')].split('/') if it not in ('lib', 'main')]


class Region(NamedTuple):
    """The replacement of a part of a file by a wrong body."""
    file: str
    start: int
    end: int
    text: str

    def is_apart(self, other):
        return self.file != other.file or self.end <= other.start or other.end <= self.start


def with_regions(folder, regions):
    """Returns the texts of the files that these regions change. The regions must not overlap."""
    texts = {it.file: read(f'{folder}/{it.file}') for it in regions}
    for it in sorted(regions, key=lambda it: it.start, reverse=True):
        texts[it.file] = texts[it.file][:it.start] + it.text + texts[it.file][it.end:]
    return texts


class Edit:
    """A wrong body: the file, and the replacements in it, in order."""

    def __init__(self, name, pairs):
        self.name, self.pairs = name, pairs

    def applied(self, folder):
        """Returns the texts of the changed files, or None if the edit can't be applied."""
        texts = {}
        for file, old, new in self.pairs:
            text = texts[file] if file in texts else read(f'{folder}/{file}')
            if text.count(old) != 1:
                return None
            texts[file] = text.replace(old, new)
        return texts

    def why_bad(self, folder):
        """Returns the reason why the edit can't be tried on the crate, or nothing."""
        files = {file for file, _, _ in self.pairs}
        beyond = sorted(it for it in files if not re.fullmatch(r'src/[\w/]+\.rt', it) or not os.path.isfile(f'{folder}/{it}'))
        if not files or not all(old for _, old, _ in self.pairs):
            return "it has no lines 'file:', 'old:' and 'new:'"
        if beyond:
            return f'there is no file of code {beyond[0]}'
        if self.applied(folder) is None:
            return "an 'old:' text of it doesn't stand in its file exactly once"
        return None if self.regions(folder) else 'it changes nothing'

    def regions(self, folder):
        """Returns the changed region of each file, from the first changed character to the last."""
        found = []
        for file, text in self.applied(folder).items():
            was = read(f'{folder}/{file}')
            start = len(os.path.commonprefix([was, text]))
            left = min(len(was), len(text)) - start
            after = len(os.path.commonprefix([was[::-1][:left], text[::-1][:left]]))
            if was != text:
                found.append(Region(file, start, len(was) - after, text[start:len(text) - after]))
        return found

    def functions(self, crate, folder):
        """Returns the functions that the edit changes. Changed imports don't count."""
        found, texts = [], {}
        for file, old, new in self.pairs:
            text = texts[file] if file in texts else read(f'{folder}/{file}')
            if not old.startswith('use '):
                place = text.index(old) + len(old) - len(old.lstrip())
                found.append(function_at(crate, file, text, place))
            texts[file] = text.replace(old, new)
        return list(dict.fromkeys(found))


def edit_of(path):
    """Returns the wrong body in a file."""
    pairs, file, old = [], '', ''
    for line in read(path).split('\n'):
        word, _, text = line.partition(':')
        text = text.removeprefix(' ')
        if word == 'file':
            file = text.strip()
        elif word == 'old':
            old = text
        elif word == 'new':
            pairs.append((file, old, text))
            old = ''
    return Edit(os.path.basename(path)[:-len('.edit')], pairs)


def files_below(folder):
    """Returns the files of a folder and of its subfolders, by their paths from the folder."""
    found = [os.path.join(at, it) for at, _, names in os.walk(folder) for it in names]
    return sorted(os.path.relpath(it, folder) for it in found)


def short_bodies(folder):
    """Iterates over the short functions of a crate's modules without a proof file and without a loop: for each the file, the line
    with which the body begins, and the number of the body's lines."""
    for file in (f'src/{it}' for it in files_below(f'{folder}/src') if it != 'laws.rt'):
        lines = read(f'{folder}/{file}').split('\n')
        for at, line in enumerate(lines):
            function = FN.match(line)
            if not function or function[1] or ' const ' in f' {line}':
                continue
            last = lines.index('}', at) if '}' in lines[at:] else at
            first = next((it + 1 for it in range(at, last) if re.fullmatch(r'(\S.*)?\{', lines[it])), last)
            by_hand = '/'.join([folder, 'proofs', *modules_of(file), function[2]])
            body = lines[first:last]
            is_plain = not os.path.isdir(by_hand) and not re.search(r'\b(for|while|loop)\b', '\n'.join(body))
            if 0 < len(body) <= SHORT and is_plain and not any(FN.match(it) for it in lines[at + 1:first]):
                yield file, body[0].strip(), len(body)


def needless(folder):
    """Iterates over bodies with a statement that has no effect, the shortest first."""
    for file, first, _ in sorted(short_bodies(folder), key=lambda it: it[2]):
        if not first.startswith('//'):
            yield Edit('control', [(file, first, NEEDLESS + first)])


def turned(folder):
    """Iterates over bodies of functions with a proof file in which the condition of an `if` is negated and its arms are swapped. The
    branches have other names then, so the prover doesn't use the answers for them."""
    for file in (f'src/{it}' for it in files_below(f'{folder}/src')):
        text = read(f'{folder}/{file}')
        for found in IF.finditer(text):
            function = function_at('', file, text, found.start())
            if function.names and os.path.isfile('/'.join([folder, 'proofs', *function.names[0].split('::')[1:], 'Answers.antt'])):
                turn = f"    if !({found[1]}) {{\n{found[3] or ''}    }} else {{\n{found[2]}    }}\n"
                yield Edit('control_turned', [(file, found[0], turn)])


def first_apart(crate, folder, edits, taken):
    """Returns the first of these edits that changes none of the functions that are taken, or None."""
    fits = (it for it in edits if it.why_bad(folder) is None and taken.isdisjoint(it.functions(crate, folder)))
    return next(fits, None)
