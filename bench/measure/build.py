"""Builds the benchmark driver, and asks it for its corpora and works."""
import collections
import glob
import os
import re
import subprocess

BENCH = os.path.dirname(os.path.dirname(os.path.abspath(__file__)))
TOP = os.path.dirname(BENCH)
DRIVER = os.path.join(BENCH, 'driver')
BUILD = os.path.join(DRIVER, 'target')
# rustc's own lexer, in Debian's rust-src. It depends on `unicode-xid`, and on `unic-emoji-char`, which Debian doesn't have.
LEXER, UNICODE_XID = '/usr/src/rustc-*/compiler/rustc_lexer', '/usr/share/cargo/registry/unicode-xid-*'
LEXER_LINES = """[dependencies.rustc_lexer]
path = "%s"
[patch.crates-io.unic-emoji-char]
path = "%s"
"""
# The size in bytes of the corpora on which the sums of works are compared.
CHECKED = 100_000

# A row of the driver's list: the form of the corpus (literals, list, attributes, source, spoiled, hostile; `program` if a whole
# program is measured), the owner of the work (ours, other), the corpus and the work.
Row = collections.namedtuple('Row', 'form whose corpus work')


def output(command, **more):
    """Returns the output of a command."""
    return subprocess.run(command, check=True, capture_output=True, text=True, **more).stdout


def callgrind(command, data=b'', tool=()):
    """Returns the instructions of a whole run of the command with this input, and its output."""
    words = ['valgrind', '--tool=callgrind', '--callgrind-out-file=/dev/null', *tool, *command]
    run = subprocess.run(words, input=data, check=True, capture_output=True)
    return int(re.search(rb'Collected : (\d+)', run.stderr)[1]), run.stdout


def dependencies(oracle):
    """Iterates over the driver's features whose dependencies are installed, each with the manifest line of the dependency."""
    found = {}
    if oracle:
        found['oracle'] = '[dependencies.synval]\npath = "%s"\n' % os.path.abspath(oracle)
    if (lexer := glob.glob(LEXER)) and glob.glob(UNICODE_XID):
        found['rustc_lexer'] = LEXER_LINES % (max(lexer), os.path.join(DRIVER, 'unic_emoji_char'))
    return found


def with_dependencies(lines):
    """Creates a folder with the driver's sources, and with a manifest that also has these dependencies."""
    folder = os.path.join(BUILD, 'with_dependencies')
    os.makedirs(folder, exist_ok=True)
    link = os.path.join(folder, 'src')
    if not os.path.islink(link):
        os.symlink(os.path.join(DRIVER, 'src'), link)
    with open(os.path.join(DRIVER, 'Cargo.toml')) as manifest, open(os.path.join(folder, 'Cargo.toml'), 'w') as copy:
        text = manifest.read().replace('"../../rust"', '"%s"' % os.path.join(TOP, 'rust'))
        copy.write('\n'.join([text, *lines, '[workspace]\n']))
    return folder


def driver(oracle, profile='release'):
    """Builds the driver in this profile of Cargo and returns its path. First checks that the driver's works have equal sums where they
    must."""
    features = dependencies(oracle)
    folder = with_dependencies(features.values()) if features else DRIVER
    command = ['cargo', 'build', '--profile', profile, '--offline', '--quiet', '--target-dir', BUILD]
    command += ['--manifest-path', os.path.join(folder, 'Cargo.toml')]
    command += ['--features', ','.join(features)] if features else []
    subprocess.run(command, cwd=DRIVER, check=True)
    path = os.path.join(BUILD, 'debug' if profile == 'dev' else profile, 'driver')
    subprocess.run([path, 'check', str(CHECKED)], check=True)
    return path


def rows(path):
    return [Row(*line.split('\t')) for line in output([path, 'names']).splitlines()]
