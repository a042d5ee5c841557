"""The Rust source files of the benchmarks, and the work of the program that prints their literals."""
import glob
import os
import re
import subprocess
import sys
import tempfile

from measure import build

# The core library in Debian's rust-src.
FOLDERS = '/usr/src/rustc-*/library/core/src'
CORPUS = 'rust sources'
TREE = 'tree of small files'
CORPORA = (CORPUS, 'literals of ' + CORPUS, TREE)
PROGRAM = 'rl_scan'
PATH = os.path.join(build.TOP, 'crates', PROGRAM, 'out', PROGRAM)


def find():
    """Passes the folder of the sources to the driver. If there is no such folder, prints a message and returns False."""
    found = sorted(glob.glob(FOLDERS))
    if found:
        os.environ['BENCH_SOURCES'] = found[-1]
        return True
    words = "bench/run: Debian's package rust-src isn't there: the rows of %s are left out"
    print(words % ' and '.join('`%s`' % corpus for corpus in CORPORA), file=sys.stderr)
    return False


def build_program():
    command = [os.path.join(build.TOP, 'build'), PROGRAM]
    subprocess.run(command, check=True, stdout=subprocess.DEVNULL)


def rows():
    """Returns the rows of the program: it prints the literals of whole sources, and counts those of many files."""
    return [build.Row('program', 'ours', CORPUS, PROGRAM), build.Row('program', 'ours', TREE, PROGRAM + ' -c')]


def text(driver, size):
    """Returns the sources as one text of about this many bytes."""
    return subprocess.run([driver, 'text', CORPUS, str(size)], check=True, capture_output=True).stdout


def plant(folder, text):
    """Writes a text to files of some KB, 20 in a folder. Each ends with a `}` at the start of a line."""
    for number, part in enumerate(re.findall(rb'.{1,1500}.*?(?:\n}\n|\Z)', text, re.DOTALL)):
        inner = os.path.join(folder, str(number // 20))
        os.makedirs(inner, exist_ok=True)
        with open(os.path.join(inner, '%d.rs' % number), 'wb') as file:
            file.write(part)


def instructions(corpus, text):
    """Counts the instructions of the program on the text, as one source or as a tree of files."""
    if corpus == CORPUS:
        return build.callgrind([PATH], text)[0]
    with tempfile.TemporaryDirectory() as folder:
        plant(folder, text)
        return build.callgrind([PATH, '-c', folder])[0]
