"""Generates unusual calls of rl_tool and rl_scan: arguments, input, and the source of input and the destination of output."""
import os
import sys
from typing import NamedTuple

sys.path.append(os.path.join(os.path.dirname(os.path.dirname(os.path.abspath(__file__))), 'oracle'))

import odd_files  # noqa: E402
import source_texts  # noqa: E402
import texts  # noqa: E402

# The source of a call's input if it isn't given as bytes, and the destination of its output.
NOTHING, A_FOLDER, A_TERMINAL = 'nothing', 'a folder', 'a terminal'
A_PIPE, FULL, CLOSED = 'a pipe', 'a full device', 'a closed pipe'
# Environment variables that describe a terminal.
NAMES = {'TERM': ['xterm', 'xterm', 'dumb', ''], 'NO_COLOR': ['', '1']}


class Call(NamedTuple):
    """A call of a program: its arguments, its folder, the source of its input, the destination of its output, and its
    environment."""
    name: str
    words: list
    folder: str
    given: object = NOTHING
    output: str = A_PIPE
    names: dict = {}

    def shown(self):
        """Returns the call as one line."""
        given = f'{len(self.given)} bytes {self.given[:200]!r}' if isinstance(self.given, bytes) else self.given
        return f'{self.name} {self.words!r}, input {given}, output {self.output} {self.names or ""}'.rstrip()


def with_streams(source, call):
    """Returns the call with its input and output chosen. For one of eight calls the output isn't a pipe."""
    output = source.choice([A_PIPE] * 28 + [FULL, CLOSED, A_TERMINAL, A_TERMINAL])
    names = {name: source.choice(values) for name, values in NAMES.items() if source.random() < .7}
    return call._replace(output=output, names=names if output == A_TERMINAL else {})


# ---- calls of rl_scan

# Options for the printed literals, their form, the count of lines, and more. A word without hyphens needs an argument.
WHICH = [[], [], [], ['--bad'], ['--bad'], ['--invisible'], ['--invisible'], ['only'], ['find'], ['find', '-i'], ['find', 'only', '-w'],
         ['--check'], ['--diff'], ['--check', '--macros=all'], ['--bad', 'allow'], ['--bad', 'allow', 'allow', '--no-stray'],
         ['--invisible', 'allow'], ['--invisible', 'allow', 'allow']]
FORMS = [[], [], [], ['--lines'], ['--bytes'], ['--text'], ['--json'], ['--json', '--lines'], ['--text', '--bytes']]
COUNTS = [[]] * 20 + [['-c'], ['--count'], ['-l'], ['--files-with-matches'], ['-q'], ['--quiet'], ['-iw'], ['-lq']]
MORE = [[]] * 5 + [['--no-stray'], ['color'], ['color'], ['color', '--no-stray'], ['--all'], ['extension'], ['--stats']]
TAKEN = {
    'only': ['Str', 'ByteStr', 'CStr', 'Byte', 'Char', 'Int', 'Float', 'Bool', 'Verbatim', 'str', 'INT', 'str,int', 'cstr,Byte,CHAR'],
    'find': ['a', 'room', 'o', 'b', '\n', '\u00e9', '\\', '"', ' ', '=', '-', '1', '\u202e', '\U0001f600', '114', 'a=b'],
    'color': ['always', 'always', 'never', 'auto'],
    'extension': ['rs', 'txt', '', '.rs'],
    'allow': ['unknown-escape', 'unknown-suffix', 'not-ascii', 'stray-character', 'U+202E', 'U+202e', 'joiner', 'bidirectional-character'],
}
SHORT = {'only': '--only', 'find': '-e', 'color': '--color', 'extension': '--extension', 'allow': '--allow'}
# Invalid options, and valid ones that exclude others.
WRONG = [
    '--nope', '-x', '-b', '-cl', '-cb', '-kStr', '-ea', '-lea', '-\u00e9', '--hiden', '--fnid', b'-\xff', '---', '--BAD', '--col', '--bad=x', '--json=1', '--lines=',
    '--only', '-k', '--only=', '--only=Str,', '--only=x', '--only:Str', '--find', '-e', '--find=', b'--find=\xff',
    '--allow', '--allow=', '--allow=U+', '--allow=unclosed-quote', '--generate', '--generate=man', '--generate=x',
    '--color', '--color=x', '--color=', '--bad', '--invisible', '--extension', '-h', '--help', '-V', '--version', '--', '-',
]


def spelled(source, word):
    """Returns an option as arguments. If it has an argument of its own, that is part of the same word or the next word."""
    if word not in TAKEN:
        return [word]
    value = source.choice(TAKEN[word])
    return source.choice(([f'--{word}={value}'], [f'--{word}', value], [SHORT[word], value]))


def path_word(source, paths):
    near = source.random()
    return source.choice(paths) if near < .65 else source.choice(odd_files.OTHER_PATHS) if near < .8 else '-' if near < .9 else '.'


def scan_words(source, paths):
    """Returns the arguments of a call of rl_scan: options that fit together, sometimes invalid ones, and paths."""
    asked = [word for group in (WHICH, FORMS, COUNTS, MORE) for word in source.choice(group)]
    pieces = [spelled(source, word) for word in asked]
    pieces += [[source.choice(WRONG)] for _ in range(source.choice([0] * 15 + [1, 2]))]
    pieces += [[path_word(source, paths)] for _ in range(source.choice((0, 1, 1, 1, 1, 2, 3)))]
    source.shuffle(pieces)
    return [word for piece in pieces for word in piece]


def scan_input(source, words, files):
    """Returns a soup, one of the files, or an empty text."""
    near = source.random()
    if near < .5:
        return next(source_texts.soups(source.random(), 1)).encode()
    if near < .85:
        return source.choice(list(files.values()))
    # Nobody writes to the terminal, so no call may read from it.
    return NOTHING if near < .93 or near < .97 and '-' in words else A_TERMINAL if near < .97 else A_FOLDER


def scan_call(source, folder, files):
    words = scan_words(source, list(files))
    return with_streams(source, Call('rl_scan', words, folder, scan_input(source, words, files)))


# ---- calls of rl_tool

COMMANDS = ['text', 'read', 'attr']
NO_COMMANDS = [
    [], [''], ['TEXT'], ['texts'], ['text '], ['text\n'], ['strict'], ['--help'], ['-'], [b'\xff'], ['a' * 5_000], ['text', ''],
    ['text', 'read'], ['text', 'text'], ['read', b'\xff'], ['--', 'text'], ['text'] * 50,
]
LONG = [
    '"' + 'abc\\n\u20ac' * 9_000 + '"', 'b"' + '\\xFF' * 20_000 + '"q', '1' + '_0' * 30_000, 'r' + '#' * 9_000 + '""' + '#' * 9_000,
    '0xFF_u8 -1.5 ' * 4_000, '1 ' * 20_000 + "'a", '/*' * 9_000 + '*/' * 9_000 + '1', '(' * 128 + '1' + ')' * 128,
    '(' * 129 + '1' + ')' * 129, ', '.join(f'a{at} = "b"' for at in range(3_000)),
]
# The families of texts that suit each command, except some commands.
SUITED = {
    'text': ['random', 'random', 'random', 'worked', 'framed', 'framed', 'characters'],
    'read': ['lists', 'lists', 'printed', 'trivia', 'soups'],
    'attr': ['attributes'],
}
ENDLESS = 1 << 30


def framed(source):
    """Returns a few characters between opening and closing delimiters."""
    opener, closer = source.choice(texts.FRAMES)
    return opener + ''.join(source.choice(texts.ALPHABET) for _ in range(source.randint(0, 4))) + closer


def character(source):
    """Returns any character except a surrogate, after a digit, or as a literal and in its suffix."""
    code = source.randrange(source.choice((0x80, 0x3000, 0x110000)))
    c = chr(code if not 0xD800 <= code < 0xE000 else code - 0x800)
    return source.choice(('1' + c, f"'{c}'a{c}"))


def makers_of_texts(source):
    """Returns functions that return a text of each family. Those of oracle/texts.py continue from text to text."""
    families = texts.families(source.randrange(ENDLESS), ENDLESS)
    made = {name: families[name]() for name in ('random', 'lists', 'printed', 'attributes')}
    made['soups'] = source_texts.soups(source.random(), ENDLESS)
    makers = {name: family.__next__ for name, family in made.items()}
    return makers | {
        'worked': lambda: source.choice(texts.WORKED), 'long': lambda: source.choice(LONG), 'framed': lambda: framed(source),
        'trivia': lambda: ''.join(source.choice('/*!\n\r a') for _ in range(source.randint(1, 7))),
        'characters': lambda: character(source)}


def tool_input(source, makers, command):
    """Returns a text for the command, or any text, sometimes cut off; a few bytes that are mostly not UTF-8; or no input."""
    near = source.random()
    if near < .06:
        return NOTHING if near < .015 else A_FOLDER if near < .03 else source.randbytes(source.randint(1, 8))
    family = source.choice(SUITED[command]) if near < .8 else 'long' if near < .82 else source.choice(list(makers))
    data = makers[family]().encode()
    return data[:source.randint(0, len(data))] if near > .97 else data


def tool_call(source, folder, makers):
    command = source.choice(COMMANDS)
    words = [command] if source.random() < .94 else source.choice(NO_COMMANDS)
    return with_streams(source, Call('rl_tool', words, folder, tool_input(source, makers, command)))


# ---- both

def generated(source, folder, count):
    """Generates `count` calls, two of three of rl_scan, on a tree that is created in the folder."""
    tree = os.path.join(folder, 'tree')
    os.mkdir(tree)
    files, makers = odd_files.make_tree(tree, source), makers_of_texts(source)
    for at in range(count):
        yield tool_call(source, tree, makers) if at % 3 == 0 else scan_call(source, tree, files)
