"""Tries the wrong bodies of a crate in as few checks as possible."""
import re
import threading

from .edits import first_apart, needless, read, turned, with_regions, write
from .holes import Holes

# A check with more wrong bodies than these takes much memory.
MOST = 40
# A goal that is the condition of a call, and so isn't a clause of the function.
REQUIRES = re.compile(r'-requires(-|$)')
NOT_REJECTED, NO_ANSWERS, CALLS = 'not rejected', 'only goals without the answers that proved them', 'only what a call asks'
# The status of a check of a function that doesn't exist, or whose name several functions have.
NO_SUCH = 2
SAYING = threading.Lock()


class Trials:
    """The wrong bodies of a crate that are tried in this run, on a copy of the crate, and their results."""

    def __init__(self, crate, folder, proved, edits, check):
        self.crate, self.folder, self.check = crate, folder, check
        # Holes in place of the proofs of the functions that a check isn't about. The proofs are those of the copy `proved`.
        self.holes = Holes(crate, folder, proved)
        self.edits, self.changed, self.regions = [], {}, {}
        # The prover's names of functions.
        self.names = {}
        # The controls, whose changes have no effect, and those that were judged. A check that rejects one would reject anything.
        self.controls, self.controlled = set(), set()
        # Pairs of wrong bodies that one check can't judge, because a function that the first one changes calls one that the second
        # one changes.
        self.apart = set()
        self.rejected, self.unanswered, self.errors, self.checks = {}, {}, 0, 0
        for edit in edits:
            why = edit.why_bad(folder)
            if why:
                self.error(edit, why)
            else:
                self.add(edit)

    def add(self, edit):
        self.edits.append(edit)
        self.changed[edit], self.regions[edit] = edit.functions(self.crate, self.folder), edit.regions(self.folder)

    def add_control(self, edits):
        """Adds the first of these edits that changes no other function than the wrong bodies do, as a control of the first check.
        Returns whether there is one."""
        taken = {function for functions in self.changed.values() for function in functions}
        is_tried = not all(self.is_outside(it) for it in self.edits)
        control = first_apart(self.crate, self.folder, edits(self.folder), taken) if is_tried else None
        if control:
            self.add(control)
            self.edits.insert(0, self.edits.pop())
            self.controls.add(control)
        return control is not None

    def add_controls(self):
        """Adds the controls. Returns whether there is one in a function without a proof file."""
        self.add_control(turned)
        return self.add_control(needless)

    def say(self, edit, what):
        with SAYING:
            print(f'{self.crate}/{edit.name}: {what}', flush=True)

    def error(self, edit, what):
        self.errors += 1
        self.say(edit, f'ERROR: {what}')

    def report(self, edit, is_rejected, what):
        """Reports the result of a wrong body: rejected, with the goals that failed, or the reason why it isn't."""
        names = ', '.join(' or '.join(it.names) for it in self.changed[edit])
        if edit in self.controls:
            self.controlled.add(edit)
            if is_rejected or not what.startswith((NOT_REJECTED, NO_ANSWERS, CALLS)):
                self.error(edit, f'it changes nothing of {names}, but came to this: {"rejected: " if is_rejected else ""}{what}')
            else:
                self.say(edit, f'{NOT_REJECTED}, as it has to be, since it changes nothing of {names}')
        elif is_rejected:
            self.rejected[edit] = what
            self.say(edit, f'rejected: {what}')
        elif what.startswith(NO_ANSWERS):
            self.unanswered[edit] = what
            self.say(edit, f'not proved: {what}')
        else:
            self.error(edit, f'{what} (in {names or "no function"} of {", ".join(dict.fromkeys(file for file, _, _ in edit.pairs))})')

    def is_outside(self, edit):
        return any(not it.names for it in self.changed[edit])

    def fits(self, edit, chosen):
        """Whether a check with the chosen wrong bodies can also have this one."""
        if self.is_outside(edit):
            return not chosen
        taken = {function for it in chosen for function in self.changed[it]}
        regions = [region for it in chosen for region in self.regions[it]]
        together = all({(edit, it), (it, edit)}.isdisjoint(self.apart) for it in chosen)
        return together and taken.isdisjoint(self.changed[edit]) and all(one.is_apart(it) for one in self.regions[edit] for it in regions)

    def batch(self, pending):
        """Returns the wrong bodies for the next check."""
        chosen = []
        for edit in pending:
            if self.fits(edit, chosen):
                chosen.append(edit)
                if len(chosen) == MOST or self.is_outside(edit):
                    break
        return chosen

    def paths(self, chosen):
        """Returns the prover's names of the functions that these wrong bodies change, so that it checks only them, or nothing if a
        name is unknown."""
        functions = [function for it in chosen for function in self.changed[it]]
        return [self.names.get(it) or it.names[0].removeprefix('::') for it in functions] if all(it.names for it in functions) else []

    def checked(self, chosen):
        """Returns the prover's verdicts with these wrong bodies. Afterwards the files are as before."""
        texts = with_regions(self.folder, [region for it in chosen for region in self.regions[it]])
        was = {it: read(f'{self.folder}/{it}') for it in texts}
        for file, text in texts.items():
            write(f'{self.folder}/{file}', text)
        verdicts = self.checked_over(chosen)
        for file, text in was.items():
            write(f'{self.folder}/{file}', text)
        return verdicts

    def checked_over(self, chosen):
        """Returns the prover's verdicts with holes in place of the other proofs. The prover may not accept a hole for some
        functions."""
        paths = self.paths(chosen)
        self.holes.dig([function for it in chosen for function in self.changed[it]])
        verdicts = self.counted(paths)
        if verdicts.status == NO_SUCH and paths:
            # The prover has its own name for the function, as for a method of a type's alias. A check of the whole crate shows the
            # name.
            verdicts = self.counted([])
        if self.holes.give_up([it for it in verdicts.of if verdicts.is_rejected(it)]):
            return self.checked_over(chosen)
        return verdicts

    def counted(self, paths):
        self.checks += 1
        return self.check(paths)

    def is_judged(self, edit, chosen, verdicts):
        """Reports the result of the wrong body. Returns false if it must be tried again without some of the others."""
        if self.is_outside(edit):
            rejected = [it for it in verdicts.of if verdicts.is_rejected(it)]
            self.report(edit, bool(rejected), ', '.join(rejected) or NOT_REJECTED)
            return True
        names = [verdicts.name(it) for it in self.changed[edit]]
        if None in names:
            self.report(edit, False, 'the prover names no such function')
            return True
        both = {name: verdicts.goals(it, f'{self.folder}/proofs') for name, it in zip(names, self.changed[edit])}
        goals, lost = ({name: found[at] for name, found in both.items()} for at in (0, 1))
        is_clause = any(not REQUIRES.search(it) for found in goals.values() for it in found)
        own = [it for it in names if is_clause and goals[it] or verdicts.is_rejected(it)]
        shown = '; '.join(f"{name}: {', '.join(goals[name])}" for name in own)
        causes = {it for name in names for it in verdicts.causes(name)}
        others = [
            it for it in chosen
            if it is not edit and not is_clause
            and not causes.isdisjoint(verdicts.name(function) for function in self.changed[it])]
        self.apart.update((edit, it) for it in others)
        if is_clause:
            self.report(edit, True, shown)
        elif not others and any(goals[name] for name in own) and not any(lost.values()):
            self.report(edit, False, f'{CALLS}: {shown}')
        elif not others and own:
            gone = '; '.join(f"{name}: {', '.join(lost[name])}" for name in own)
            self.report(edit, False, f'{NO_ANSWERS}: {gone}')
        elif not others:
            self.report(edit, False, NOT_REJECTED)
        return not others

    def tried(self, chosen):
        """Tries these wrong bodies in one check. If the check doesn't end, tries its halves. Returns those that are judged."""
        verdicts = self.checked(chosen)
        self.names.update({it: verdicts.name(it) for edit in chosen for it in self.changed[edit]})
        if verdicts.status < 0 and len(chosen) == 1:
            # The prover was killed, most likely because it took too much memory.
            verdicts = self.checked(chosen)
        if verdicts.is_whole():
            return [it for it in chosen if self.is_judged(it, chosen, verdicts)]
        if len(chosen) == 1:
            self.report(chosen[0], False, verdicts.why())
            return chosen
        half = len(chosen) // 2
        return [*self.tried(chosen[:half]), *self.tried(chosen[half:])]

    def try_all(self):
        pending = list(self.edits)
        while pending:
            judged = self.tried(self.batch(pending))
            pending = [it for it in pending if it not in judged]
