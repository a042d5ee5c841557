"""Holes in place of proofs. If a check is only about some functions, it accepts the other functions by their contracts, as `rt
ci` proved them, and proves none of them again."""
import os
import re
import shutil

from .edits import FN, files_below, modules_of, read, write

# The files of a function's proof that are written by hand.
ANSWERS = ('/Answers.antt', '/Invariants.antt')
# The text that replaces a function's proof. `?` is the hole.
PROOF = '''use Rattle.{crate}.proofs.{module}.Statement as stated

pub {name}_spec : {{M : Type 1}} → stated.statement M
{name}_spec = ?
'''


def paths_of(folder):
    """Returns the functions of a crate whose proofs can be replaced by holes, each by its path below the crate: those outside of
    types, and those with a folder of proof files. A function that calls itself isn't among them, since one proof is for all
    functions that call each other."""
    found = set()
    for file in (f'src/{it}' for it in files_below(f'{folder}/src') if it.endswith('.rt')):
        lines = read(f'{folder}/{file}').split('\n')
        for at, line in enumerate(lines):
            function = FN.match(line)
            if function and not function[1] and 'extern' not in line and not is_in_cycle(lines, at, function[2]):
                found.add((*modules_of(file), function[2]))
    proofs = files_below(f'{folder}/proofs')
    found.update(tuple(it.split('/')[:-1]) for it in proofs if it.endswith(ANSWERS) and '+' not in it)
    # A proof that is written by hand stays.
    return found - {tuple(it.split('/')[:-1]) for it in proofs if it.endswith('/Proof.antt')}


def is_in_cycle(lines, at, name):
    """Whether the function at this line is in a cycle of calls, by its attributes, or because its body calls it."""
    body = lines[at + 1:lines.index('}', at)] if '}' in lines[at:] else []
    if any(re.search(rf'(?<![.:\w]){name}\(', line) for line in body):
        return True
    while at and lines[at - 1].startswith('#['):
        at -= 1
        if lines[at].startswith('#[cycle'):
            return True
    return False


class Holes:
    """The holes in a copy of a crate, and the proofs of another copy of the crate."""

    def __init__(self, crate, folder, proved):
        self.crate, self.folder, self.proved = crate, folder, proved
        self.paths, self.dug = paths_of(folder), set()

    def name(self, path):
        return '::'.join([self.crate, *path])

    def dig(self, functions):
        """Replaces each proof by a hole, except those of these functions. If one of them isn't a function, every proof is left in
        place."""
        is_all = not all(it.names for it in functions)
        wanted = {it for it in self.paths if not is_all and not any(self.name(it).endswith(function.names) for function in functions)}
        for path in self.dug - wanted:
            self.fill(path)
        for path in wanted - self.dug:
            at = f"{self.folder}/proofs/{'/'.join(path)}"
            # A function in a module with the same name has its folder in that module's folder.
            for it in ANSWERS:
                if os.path.isfile(at + it):
                    os.remove(at + it)
            os.makedirs(at, exist_ok=True)
            write(f'{at}/Proof.antt', PROOF.format(crate=self.crate, module='.'.join(path), name=path[-1]))
        self.dug = wanted

    def fill(self, path):
        """Restores the proof."""
        at, was = (f"{it}/proofs/{'/'.join(path)}" for it in (self.folder, self.proved))
        os.remove(f'{at}/Proof.antt')
        for it in ANSWERS:
            if os.path.isfile(was + it):
                shutil.copy(was + it, at)

    def give_up(self, names):
        """Leaves the proofs of these functions in place from now on. Returns whether one of them was replaced by a hole."""
        bad = {it for it in self.dug if self.name(it) in names}
        for it in bad:
            self.fill(it)
        self.dug -= bad
        self.paths -= bad
        return bool(bad)
