"""Writes the rules of the grammars on docs/GRAMMAR.md, from the sources: each rule below its sentence."""
import re

from .items import read

PAGE, FOLDER = 'docs/GRAMMAR.md', 'crates/rl_theorem/specs'
# The files of the rules of Rust's and of `syn`'s grammar.
FILES = ('RustRules.antt', 'SynRules.antt')
# A part of the page that shows a file: a comment with the file's name, and a block.
SHOWN = re.compile(r'(?<=^<!-- )(\w+\.antt) -->\n\n```text\n.*?\n```$', re.M | re.S)
TYPE = re.compile(r'^abbrev pub [^\n]* : [^\n]*\n(?:    [^\n]*\n)*(?=\S)', re.M)


def code_of(name):
    """Returns the definitions of a file of rules with their comments, without imports, types of rules and blank lines."""
    blocks = re.split(r'\n\n+(?=\S)', read(f'{FOLDER}/{name}').split('\n', 1)[1])
    kept = '\n'.join(it for it in blocks if not re.search(r'(?m)^(pub )?use ', it)).rstrip('\n')
    return (TYPE.sub('', kept) if name in FILES else kept).replace('\n-- ----', '\n\n-- ----')


def with_rules():
    """Returns the page with the rules as in the sources."""
    return SHOWN.sub(lambda it: f'{it[1]} -->\n\n```text\n{code_of(it[1])}\n```', read(PAGE))
