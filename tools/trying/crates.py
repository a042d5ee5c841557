"""The crates of the repository, copies of them, and runs of the prover of Rattle's kit on these."""
import os
import re
import shutil
import signal
import subprocess
import threading

from .edits import files_below, read
from .verdicts import Verdicts

PARTS = ('src', 'specs', 'proofs')
# The seconds after which a check is stopped, and the memory in bytes that is reserved for one.
LONGEST, MEMORY = 3600, 4_000_000_000


def lines_of(text):
    """Returns the lines of a crates.txt, each by its crate."""
    lines = [line.partition('#')[0].strip() for line in text.split('\n')]
    return {line.split(':')[0].split()[0]: line for line in lines if line}


class Crates:
    """The crates that crates.txt lists. A crate comes after those that it names."""

    def __init__(self, top):
        self.top, self.lines = top, lines_of(read(f'{top}/crates.txt'))

    def __contains__(self, name):
        return name in self.lines

    def right_below(self, name):
        """Returns the libraries that the crate names, of the repository and of the kit."""
        return self.lines[name].partition(':')[2].split()

    def below(self, name):
        """Returns the crates below the crate. Each comes after those that it names."""
        found = []
        for it in self.right_below(name):
            if it in self:
                found += [lower for lower in [*self.below(it), it] if lower not in found]
        return found

    def with_those_below(self, names):
        """Returns the crates and those below them. Each crate comes after the crates that it names."""
        return list(dict.fromkeys(it for name in names for it in [*self.below(name), name]))

    def copy_parts(self, names, to):
        """Copies the files that the prover reads of these crates and of those below them to a folder."""
        for name in self.with_those_below(names):
            for part in PARTS:
                if os.path.isdir(f'{self.top}/crates/{name}/{part}'):
                    shutil.copytree(f'{self.top}/crates/{name}/{part}', f'{to}/{name}/{part}')

    def size_of(self, folder):
        """Returns an estimate of the size of the proofs in a crate's folder."""
        return sum(os.path.getsize(f'{folder}/{it}') for it in files_below(folder))


class Prover:
    """Rattle's prover, with libraries as `rt ci` builds them: these have only their statements, and other commands of rt don't
    accept them."""

    def __init__(self, crates, libraries):
        self.crates, self.libraries = crates, libraries
        self.kit = os.path.dirname(said_by('rt', 'doc'))
        self.running, self.lock, self.is_stopped = set(), threading.Lock(), False

    def build_below(self, names, copies):
        """Builds the libraries below these crates with `rt ci`, from copies of the crates. `rt ci` caches its proofs on this
        machine. Returns the error, if there is one."""
        libraries = list(dict.fromkeys(it for name in names for it in self.crates.below(name)))
        if not libraries:
            return None
        # `rt` takes a folder that contains `.git` for the top of a repository.
        os.makedirs(f'{self.libraries}/.git')
        shutil.copy(f'{self.crates.top}/HANDLES', self.libraries)
        with open(f'{self.libraries}/crates.txt', 'w', encoding='utf-8') as it:
            it.writelines(f'{self.crates.lines[name]}\n' for name in libraries)
        for it in libraries:
            shutil.copytree(f'{copies}/{it}', f'{self.libraries}/crates/{it}')
        ended = self.run(['rt', 'ci'], self.libraries, 4 * LONGEST)
        return None if ended.status == 0 else '\n'.join(ended.said.rstrip().split('\n')[-5:])

    def words(self, name, kept):
        """Returns the command that checks a crate in its folder, and keeps its proofs."""
        is_program = os.path.exists(f'{self.crates.top}/crates/{name}/src/main.rt')
        root = 'src/main.rt' if is_program else 'src/lib.rt'
        words = [f'{self.kit}/bin/rattle', 'check', '--crate-name', name, root, '--extern', f'std={self.kit}/rlibs/std.rlib']
        words += ['-L', f'dependency={self.kit}/rlibs']
        for it in self.crates.right_below(name):
            rlib = f'{self.libraries}/crates/{it}/out/rlib' if it in self.crates else f'{self.kit}/rlibs'
            words += ['--extern', f'{it}={rlib}/{it}.rlib']
        for it in self.crates.below(name):
            words += ['-L', f'dependency={self.libraries}/crates/{it}/out/rlib']
        words += ['--antt-project', f'{self.kit}/rattle/logic/antt-project.json', '--logic-built', f'{self.kit}/logic_built']
        words += ['--jobs', '1', '--links', f'{name}=', '--incremental', kept]
        is_static = 'staticlib' in self.crates.lines[name].partition(':')[0].split()
        return [*words, '--crate-type', 'staticlib'] if is_static else words

    def check(self, name, folder, kept, paths):
        """Returns the prover's output for these functions and those that they call, or for the whole crate, in the folder, with the
        proofs that it kept there. The prover accepts holes as proofs."""
        only = [word for it in paths for word in ('--only', it)]
        return self.run([*self.words(name, kept), '--allow-holes', '--short-goals', *only], folder, LONGEST)

    def run(self, words, folder, longest):
        """Returns the output of a command, and its status."""
        how = {'stdin': subprocess.DEVNULL, 'stdout': subprocess.PIPE, 'stderr': subprocess.STDOUT, 'errors': 'replace'}
        with self.lock:
            if self.is_stopped:
                raise InterruptedError
            ran = subprocess.Popen(words, cwd=folder, start_new_session=True, **how)
            self.running.add(ran)
        try:
            said, _ = ran.communicate(timeout=longest)
        except subprocess.TimeoutExpired:
            os.killpg(ran.pid, signal.SIGKILL)
            said, _ = ran.communicate()
        finally:
            with self.lock:
                self.running.discard(ran)
        return Verdicts(said, ran.returncode)

    def stop(self):
        """Stops all running commands, and prevents new ones."""
        with self.lock:
            self.is_stopped = True
            for it in self.running:
                if it.poll() is None:
                    os.killpg(it.pid, signal.SIGKILL)


def said_by(*words):
    return subprocess.run(words, capture_output=True, text=True, check=True).stdout.strip()


def lanes():
    """Returns the number of checks that run at the same time."""
    jobs = os.environ.get('RT_JOBS', '')
    if jobs.isdigit() and int(jobs):
        return int(jobs)
    free = 1024 * int(re.search(r'MemAvailable: *(\d+)', read('/proc/meminfo'))[1])
    return max(1, min(len(os.sched_getaffinity(0)), free // MEMORY))
