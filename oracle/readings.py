#!/usr/bin/env python3
"""Compares the results of rl_rows with those of three other programs, on the texts of texts.py.

    oracle/readings.py [PATH] [--commands text,int,..] [--families worked,cuts,..] ..

By its command, a result is compared with that of

    text, int, float, skip, value   `syn`'s own parsing code: PATH is a program with it (docs/COMPARISON.md). `PATH --len` (and `--int`,
                                    `--float`, `--skip`) reads texts, each after its length, and prints a line for each
    read                            proc_macro2's lexer and that code (`reader` of oracle/rustc)
    strict, spans, attr             rustc's own lexer (the macros of oracle/rustc)

The first five are the default. Other options: frame.py. `--rl-rows` may name the package's example `lines`. A million
comparisons take 20 to 60 s, and with rustc three minutes. Most families always use all of their texts. `--families` leaves some out.
"""
import functools
import os

import frame
import listed
import rustc
import texts


def syn(path, command, data, is_package=False):
    """Returns the lines that syn's parsing code prints for a command. For `read`, the path is that of `reader`."""
    if command == 'value':
        return [listed.value_line(text, line, is_package) for text, line in zip(data, syn(path, 'text', data))]
    words = [path, '--len', *([] if command == 'text' else [f'--{command}'])]
    return frame.answers_of(words, frame.with_lengths(data), data, command == 'read')


def other(asked, command):
    """Returns the function that returns the other program's results for the command."""
    if command in listed.OF_RUSTC:
        return functools.partial(rustc.Lexer().answers, command)
    path = os.path.join(frame.helper('rustc'), 'reader') if command == 'read' else asked.path
    return functools.partial(syn, path, command, is_package=os.path.basename(asked.rl_rows) == 'lines')


def compare(asked, report):
    """Compares the results for generated texts. A text that an earlier family had isn't compared again."""
    others = {command: other(asked, command) for command in asked.commands.split(',')}
    names = asked.families.split(',') if asked.families else texts.FAMILIES
    about = {name: [command for command in others if command in texts.ABOUT.get(name, [command])] for name in names}
    count = 0
    for name, batch in texts.fresh_batches(asked, filter(about.get, names)):
        count += len(batch)
        for command in about[name]:
            listed.compare(report, command, batch, lambda of: (others[command](of), frame.of_rows(asked.rl_rows, command, of)))
    return count


if __name__ == '__main__':
    frame.run(compare, __doc__, 'path?', ours=['rl_rows'], count=500_000, commands='text,int,float,skip,value', families='')
