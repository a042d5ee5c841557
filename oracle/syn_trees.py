#!/usr/bin/env python3
"""Compares the package with `syn` 1 on whole Rust files: attributes, and which literals are inside of macro calls.

    oracle/syn_trees.py FOLDER.. ..      some 10 s for 200 files

The macros of oracle/syn have the results of both, while rustc expands them. The entries of each attribute, and of each list in it,
are compared as the package's `Meta` parses them, and the literals as its `Restylables` finds them. Other options: frame.py.
"""
import os
import sys

import frame
import rustc

# The number of files and of their bytes that are compared at a time.
FILES = 2_000, 8_000_000


def compare(asked, report):
    library = os.path.join(frame.helper('syn'), 'libtrees.so')
    texts = [data for data in frame.sources_below(asked.folders, ('.rs',)) if frame.text_of(data) is not None]
    for batch in frame.batches(texts, *FILES):
        for macro in 'attributes', 'literals':
            out, printed = rustc.by_macros(library, f'trees::{macro}!();'.encode(), frame.with_lengths(batch), '--edition', '2018')
            if out is None:
                sys.exit(f'rustc: {printed.decode()[-2000:]}')
            for name, text, theirs, ours, known in (line.split('\t') for line in out.decode().split('\n')[:-1]):
                report.judge(name, text.encode(), theirs, ours, known)
    return len(texts)


if __name__ == '__main__':
    frame.run(compare, __doc__, 'folders+', what='files')
