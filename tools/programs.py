"""Parses the arguments of scripts, and finds the programs that they run: those that Cargo builds of rust/programs, or the proved
ones, crates/NAME/out/NAME.

Cargo first builds the whole workspace. From nothing that takes a minute, and a line on standard error reports it. The status is 2
if a program can't be found or built.
"""
import argparse
import functools
import os
import shutil
import subprocess
import sys

TOP = os.path.dirname(os.path.dirname(os.path.abspath(__file__)))
FOLDER = os.path.join(TOP, 'rust/programs')
BY_BUILD = ('rl_tool', 'rl_scan')


def arguments(words, *places, **options):
    """Returns the arguments of a script. `words` is the text of --help. A place is the name of a positional argument, with `?`, `*`
    or `+` after it if it is optional or has several values. An option has its default, which is `False` if it takes no value."""
    parser = argparse.ArgumentParser(description=words, formatter_class=argparse.RawDescriptionHelpFormatter)
    for place in places:
        parser.add_argument(place.rstrip('?*+'), nargs=place[-1] if place[-1] in '?*+' else None)
    for name, default in options.items():
        how = {'action': 'store_true'} if default is False else {'type': type(default), 'default': default}
        parser.add_argument(f'--{name.replace("_", "-")}', **how)
    return parser.parse_args()


def fail(words):
    """Prints the message, and ends with status 2."""
    print(f'{os.path.basename(sys.argv[0])}: {words}', file=sys.stderr)
    sys.exit(2)


@functools.cache
def cargo_folder():
    """Builds all programs with Cargo, once. Returns their folder."""
    if not shutil.which('cargo'):
        fail("cargo, which builds the programs, isn't on the path; --proved runs those that ./build proved")
    target = os.path.join(FOLDER, 'target')
    print('cargo build --release --workspace, in rust/programs', file=sys.stderr, flush=True)
    words = ['--quiet', '--release', '--workspace', '--manifest-path', os.path.join(FOLDER, 'Cargo.toml'), '--target-dir', target]
    if subprocess.run(['cargo', 'build', *words], check=False).returncode:
        fail("Cargo didn't build rust/programs")
    return os.path.join(target, 'release')


def runnable(path, hint=''):
    """Returns the path of an existing program, or fails with a hint."""
    found = shutil.which(path)
    if not found:
        fail(f'{path} is no program{hint}')
    return found


def cargos(name):
    """Returns the path of the program that Cargo builds."""
    return runnable(os.path.join(cargo_folder(), name))


def proved(name):
    """Returns the path of the proved program, which must exist already."""
    how = './build' if name in BY_BUILD else f'rt run in crates/{name}'
    return runnable(os.path.join(TOP, 'crates', name, 'out', name), f': {how} proves and builds it')


def chosen(name, given=None, is_proved=False):
    """Returns the path of the program: the given one, the proved one, or the one that Cargo builds. Only a program with a crate can
    be proved."""
    if given:
        return runnable(given)
    return proved(name) if is_proved and os.path.isdir(os.path.join(TOP, 'crates', name)) else cargos(name)
