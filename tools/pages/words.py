"""Writes the messages and identifiers of errors in the headings of docs/ERRORS.md, and its table of identifiers, from the sources."""
import re

from .items import read

PAGE = 'docs/ERRORS.md'
# The files with the messages of each type of error, and with the identifiers that `rl_scan` prints.
BOTH = {'FlawKind': 'crates/rl_strict/src/flaws.rt', 'TypeError': 'crates/rl_flaws/src/type_errors.rt'}
MESSAGES = BOTH | {'LexKind': 'crates/rl_lexer/src/lex_error.rt', 'SyntaxErrorKind': 'crates/rl_cursors/src/syntax_error.rt'}
# The errors of a whole source that `rl_scan` prints, with their identifiers. Reading ends at the first two, so `--allow` can't leave
# them out.
PRINTED = {'LexKind::UnclosedQuote': 'unclosed-quote', 'LexKind::UnclosedComment': 'unclosed-comment',
           'LexKind::StrayCharacter': 'stray-character'}
UNCLOSED = {'unclosed-quote', 'unclosed-comment'}
# The error that no type of errors has, and an example of each class of characters that `--invisible` prints.
RESERVED = {'reserved-prefix': 'reserved prefix'}
CHARACTERS = {'bidirectional-character': 'U+202E RIGHT-TO-LEFT OVERRIDE', 'control-character': 'U+0008',
              'invisible-character': 'U+200B', 'joiner': 'U+200D', 'variation-selector': 'U+FE0F'}
# The table of identifiers on the page.
TABLE = re.compile(r'(?<=^\| Identifier \| Mode \| Message \|\n\|---\|---\|---\|\n)(?:\|.*\n)*', re.M)
# An entry of the page: its heading, and below it its identifiers and kinds.
ENTRY = re.compile(r'^### (.*)\n\n(?:Identifier: .*\. )?Kinds?: (.*)\.$', re.M)


def strings_of(files, functions):
    """Returns the string that one of the functions returns for each variant of these types, by the variant's name."""
    found = {}
    for kind, path in files.items():
        for part in re.split(r'\bfn (?=\w+\()', read(path)):
            if part.split('(')[0] in functions:
                strings = re.findall(kind + r'::(\w+) => "((?:\\.|[^"\\])*)"', part)
                found.update((f'{kind}::{variant}', re.sub(r'\\(.)', r'\1', its)) for variant, its in strings)
    return found


def messages():
    """Returns the message of each variant."""
    return strings_of(MESSAGES, ['message'])


def identifiers():
    """Returns the identifier of each variant that `rl_scan` prints."""
    return strings_of(BOTH, ['id']) | PRINTED


def identifier_rows():
    """Returns the rows of the table of identifiers, in alphabetical order."""
    said, ids = messages(), identifiers()
    rows = {its: ('`--bad`', said[name]) for name, its in ids.items()}
    rows.update((its, ('`--bad`', text)) for its, text in RESERVED.items())
    rows['stray-character'] = '`--bad --no-stray`', rows['stray-character'][1]
    rows.update((its, ('`--invisible`', text)) for its, text in CHARACTERS.items())
    return ''.join(f'| `{its}` | {mode} | {in_code(text)} |\n' for its, (mode, text) in sorted(rows.items()))


def in_code(text):
    return f'`` {text} ``' if '`' in text else f'`{text}`'


def kinds_of(listed):
    return re.findall(r'`(\w+::\w+)`', listed)


def with_words():
    """Returns the page with the headings and identifiers of its kinds as in the sources."""
    said, ids = messages(), identifiers()

    def written(entry):
        kinds = kinds_of(entry[2])
        heading = ' / '.join(dict.fromkeys(in_code(said[it]) for it in kinds if it in said)) or entry[1]
        its = dict.fromkeys(ids[it] for it in kinds if it in ids)
        identifier = f'Identifier: {", ".join(f"`{it}`" for it in its)}. ' if its else ''
        return f'### {heading}\n\n{identifier}Kind{"s" if len(kinds) > 1 else ""}: {entry[2]}.'

    return TABLE.sub(lambda _: identifier_rows(), ENTRY.sub(written, read(PAGE)))


def check_allowed(tell):
    """Checks that `rl_scan` prints the identifiers of the table, and that `--allow` accepts exactly those at which reading goes on."""
    errors = {*identifiers().values(), *RESERVED} - UNCLOSED
    for path, form, ids in (('ids', r'const BAD_IDS: .*?\];', errors), ('ids', r'const CHARACTER_IDS: .*?\];', CHARACTERS),
                            ('errors', r'LexKind::UnclosedQuote => .*?\};', PRINTED.values()),
                            ('hidden', r'fn character_id\(.*?\n\}\n', CHARACTERS)):
        code = re.search(form, read(f'crates/rl_scan/src/{path}.rt'), re.S)
        if not code or sorted(re.findall('"([^"]*)"', code[0])) != sorted(ids):
            tell(f'crates/rl_scan/src/{path}.rt: other identifiers than on {PAGE}')


def check_words(tell):
    """Checks that the page has an entry for each message and identifier of the sources."""
    check_allowed(tell)
    if not TABLE.search(read(PAGE)):
        tell(f'{PAGE}: has no table of identifiers')
    names, shown = {*messages(), *identifiers()}, {it for entry in ENTRY.finditer(read(PAGE)) for it in kinds_of(entry[2])}
    for name in sorted(names - shown - {'LexKind::Memory'}):
        tell(f'{PAGE}: has no entry of {name}')
    for files, found in (MESSAGES, messages()), (BOTH, identifiers()):
        for kind in files.keys() - {name.split('::')[0] for name in found}:
            tell(f'{files[kind]}: a function with strings for {kind} is not found')
