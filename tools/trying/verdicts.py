"""The prover's verdicts on the functions of a check."""
import os
import re

from .edits import read

# Messages of the prover about proof files that name something that a wrong body removed.
LOST = re.compile(r'has no field|is not in scope|has no `|was not admitted|\(nearest: ')

# A goal that a proof file answers. The second part of a goal's name is its clause, if the function has several clauses.
ANSWER = re.compile(r'(?m)^pub (\S+) : goal\.')

# Messages about a function that is proved, or that would be proved without holes in place of other proofs.
WELL = ('proved', 'no holes', 'depends on a hole')


def part_of(goal):
    """Returns what the goal is about: the result, the start of a loop, an iteration, or a condition of a call; and its clause."""
    where, _, clause = goal.partition('-clause-')
    return where.rpartition('-')[2] if where.startswith('loop-') else where.partition('-')[0], clause


def is_left_to_search(goal, answered):
    """Whether the search proves this part of the contract everywhere in the unchanged function. If a proof file answers the same
    part under the name of another branch, a wrong body that renames the branch only loses its answer."""
    what, clause = part_of(goal)
    return not any(part_of(it) in ((what, clause), (what, '')) for it in answered)


class Verdicts:
    """The prover's verdict on each function of a check, and the check's exit status."""

    def __init__(self, said, status):
        self.said, self.status = said, status
        self.of = dict(re.findall(r'(?m)^fn (\S+): (.*)$', said))

    def is_whole(self):
        """Whether the check ended normally. Otherwise the prover may have no verdict on some functions."""
        last = self.said.rstrip('\n').rpartition('\n')[2]
        # The first message is about a whole crate, and the second one about some functions and those that they call.
        return bool(self.of and self.status in (0, 1) and last.startswith(('holes=', 'only=')))

    def why(self):
        """Returns the prover's message for a check that didn't end normally."""
        if self.status < 0:
            return f'its check was stopped by signal {-self.status}'
        errors = [it for it in self.said.split('\n') if re.search(r'\berror\b', it)] or self.said.strip().split('\n')[-3:]
        return f"the prover gave no verdict (status {self.status}): {' | '.join(errors[:3])[:600]}"

    def name(self, function):
        """Returns the prover's name of the function, or None if it has no function of this name, or several."""
        # The name of a method of a type's alias contains the alias's parameters too.
        found = [it for it in self.of if re.sub(r'\+\w+::', '::', it).endswith(function.names)]
        return found[0] if len(found) == 1 else None

    def is_rejected(self, name):
        """Whether the function itself is rejected, and not only because it calls a rejected function."""
        verdict = self.of[name]
        if verdict.startswith(WELL):
            return False
        # A called hole isn't a reason for a rejection.
        called = [it for it in re.findall('`([^`]+)`', verdict.partition('it calls')[2]) if it in self.of]
        return 'did not prove' in verdict or all(self.of[it].startswith(WELL) for it in called)

    def goals(self, function, proofs):
        """Returns the function's goals that weren't proved, although each has what proved it before: its answer in the proof file, of
        which nothing is gone, or the search alone. Returns the other goals as a second list. The proof files are in the folder
        `proofs`. If the function calls one that isn't proved, only goals with an answer count, since the search waits for the other
        function's proof."""
        name, found = self.name(function), []
        if self.is_rejected(name):
            listed = self.of[name].partition('did not prove')[2].partition(';')[0]
            found += [it for it in re.findall('`([^`]+)`', listed) if it not in self.of]
            noted = rf'(?m)^note: {re.escape(function.file)}:(\d+):\d+: .*?\(`([^`]+)`\)'
            found += [goal for line, goal in re.findall(noted, self.said) if int(line) in function.lines]
        path = '/'.join(name.split('::')[1:])
        errors = re.findall(rf"(?m)^\./proofs/{re.escape(path)}/\w+\.antt:\d+:\d+: error: `([^`]+)`: (.*)$", self.said)
        answers = f'{proofs}/{path}/Answers.antt'
        answered = set(ANSWER.findall(read(answers))) if os.path.isfile(answers) else set()
        refused = {goal for goal, _ in errors} - {goal for goal, why in errors if LOST.search(why)}
        every = dict.fromkeys([*found, *(goal for goal, _ in errors)])
        counted = [it for it in every if it in refused or it in found and is_left_to_search(it, answered)]
        return counted, [it for it in every if it not in counted]

    def causes(self, name):
        """Returns the functions that are rejected themselves and that this function calls, directly or through other functions."""
        found, seen, left = set(), set(), [name]
        while left:
            for it in re.findall('`([^`]+)`', self.of[left.pop()].partition('it calls')[2]):
                if it in self.of and it not in seen:
                    seen.add(it)
                    (found.add if self.is_rejected(it) else left.append)(it)
        return found
