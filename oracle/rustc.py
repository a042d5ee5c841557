"""Runs rustc on texts: for its errors, with their byte ranges in the texts, and for the results of its own lexer, by the
package oracle/rustc."""
import bisect
import json
import os
import re
import subprocess
import tempfile
from pathlib import Path

from frame import helper, up_to_points, with_lengths

# rustc reads a source from standard input, where it names it `<anon>`, and writes its metadata to standard output.
HEAD = ('--crate-type', 'lib', '--emit', 'metadata', '-o', '-')


def errors(source, edition='2021'):
    """Returns rustc's errors in a source of bytes, as its JSON objects."""
    command = ['rustc', '--edition', edition, *HEAD, '--error-format=json', '-Awarnings', '-']
    told = subprocess.run(command, input=source, capture_output=True, check=False).stderr
    return [it for it in map(json.loads, told.splitlines()) if it.get('level') == 'error']


def placed(texts, before, after, front='', back='', edition='2021', primary=True):
    """Returns rustc's errors in texts that are in one source, each between the text `before` and the text `after`: for each text
    the byte ranges that errors mark, and their messages. With `primary`, only the first range of an error counts. All errors are
    returned too."""
    source, begins = bytearray(front.encode()), []
    for text in texts:
        source += before.encode()
        begins.append(len(source))
        source += (text + after).encode()
    end, found = len(source), [[] for _ in texts]
    told = errors(source + back.encode(), edition)
    for error in told:
        for span in error['spans']:
            at = bisect.bisect_right(begins, span['byte_start']) - 1
            if (span['is_primary'] or not primary) and 0 <= at and span['byte_start'] < end:
                found[at].append((span['byte_start'] - begins[at], span['byte_end'] - begins[at], error['message']))
    return found, told


def rejected(texts, errors_in):
    """Returns the texts that have errors. Later passes of rustc begin only if earlier ones find no error. So the texts with errors
    are removed, and the others are compiled again, until there is no error."""
    bad, left = set(), list(texts)
    while now := {text for text, found in zip(left, errors_in(left)) if found}:
        bad |= now
        left = [text for text in left if text not in now]
    return bad


def by_macros(library, source, given, *words):
    """Expands a source with rustc that calls the macros of a library. Returns the bytes that the macros write for the given bytes,
    or None if they write nothing, and rustc's output."""
    crate = os.path.basename(library).removeprefix('lib').removesuffix('.so')
    command = ['rustc', *words, *HEAD, '--cap-lints', 'allow', '--extern', f'{crate}={library}', '-']
    with tempfile.TemporaryDirectory() as folder:
        texts, out = Path(folder, 'texts'), Path(folder, 'out')
        texts.write_bytes(given)
        names = {**os.environ, 'ANSWERS_TEXTS': texts, 'ANSWERS_OUT': out, 'RUSTC_BOOTSTRAP': '1', 'RUSTC_ICE': '0'}
        printed = subprocess.run(command, input=source, env=names, capture_output=True, check=False).stderr
        return out.read_bytes() if out.exists() else None, printed


class Lexer:
    """rustc's own lexer, by a library of macros: that of oracle/rustc."""

    def __init__(self, edition='2021', library=None):
        self.library, self.edition = library or os.path.join(helper('rustc'), 'libanswers.so'), edition

    def expanded(self, source, texts):
        """Returns the results that the macros of the source write, and rustc's first error at each line of the source."""
        out, printed = by_macros(self.library, source, with_lengths(texts), '--edition', self.edition, '--error-format', 'short')
        told = {}
        for line, words in re.findall(rb'<anon>:(\d+):\d+: error[^:]*: (.*)', printed):
            told.setdefault(int(line), words.decode(errors='replace'))
        return out or b'', told

    def judged(self, command, texts):
        """Returns the line of each text for a command that examines single texts."""
        lines = self.expanded(b'answers::judged!(%s);' % command.encode(), texts)[0].split(b'\n')[:-1]
        if len(lines) != len(texts):
            raise ValueError('%d answers of rustc for %d texts' % (len(lines), len(texts)))
        return lines

    def answers(self, command, texts):
        """Returns the line of each text for the command `strict`; for `spans` and `attr` its lines, or `unlexed` if rustc reports
        an error. rustc removes a CR and a byte order mark, so texts with one must not be given."""
        if command == 'strict':
            return self.judged(command, texts)
        sound = [b'\r' not in text and not text.startswith(b'\xef\xbb\xbf') for text in texts]
        lexed = self.judged('lexes', [b'\n' + text for text in texts])
        chosen = [at for at, line in enumerate(lexed) if line == b'true' and sound[at]]
        answers = [b'unlexed'] * len(texts)
        for at, (answer, _) in zip(chosen, self.told(command, [texts[at] for at in chosen])):
            answers[at] = answer
        return answers

    def told(self, command, texts):
        """Returns the lines of texts that rustc lexes in one source, each in braces, or `unlexed`, and with each rustc's error or
        None. If an error stops rustc, the texts without an error are lexed again."""
        if not texts:
            return []
        begins, line, pieces = [], 2, [b'answers::lines!(%s\n' % command.encode()]
        for text in texts:
            begins.append(line)
            # A CR at the end of the text must not be directly before the LF.
            pieces.append(b'{' + text + (b' ' if text.endswith(b'\r') else b'') + b'\n}\n')
            line += text.count(b'\n') + 2
        out, told = self.expanded(b''.join(pieces) + b');', texts)
        if 1 in told and 'panicked' not in told[1] and len(texts) == 1:
            return [(b'unlexed', told[1])]
        if 1 in told:
            raise ValueError('rustc says of the macro: ' + told[1])
        bad = {bisect.bisect_right(begins, line) - 1: (b'unlexed', words) for line, words in told.items()}
        answers = up_to_points(out.split(b'\n')[:-1])
        if len(answers) == len(texts):
            return [bad.get(at) or (answer, None) for at, answer in enumerate(answers)]
        if not bad:
            raise ValueError('%d answers of rustc for %d texts' % (len(answers), len(texts)))
        others = iter(self.told(command, [text for at, text in enumerate(texts) if at not in bad]))
        return [bad.get(at) or next(others) for at in range(len(texts))]

    def literals(self, texts):
        """Returns, for each whole source without its start, the positions and lines of its literals, or `unlexed`; and rustc's
        first error, or None."""
        calls = b''.join(b'answers::tried!(%d);\n' % at for at in range(len(texts)))
        told = self.expanded(calls, [b'\n' + text for text in texts])[1]
        answers = [(b'unlexed', told.get(at + 1)) for at in range(len(texts))]
        chosen = [at for at, (_, words) in enumerate(answers) if words is None]
        for at, answer in zip(chosen, self.told('sources', [texts[at] for at in chosen])):
            answers[at] = answer
        return answers


# ---- rustc's messages

# Flaws that no text after them can repair. Their position is before that of other errors.
EARLIER = ('NoUnicode', 'UnicodeEscapeOutOfRange', 'Surrogate', 'Nul', 'TooManyDigits', 'HexEscapeOutOfRange')
# If a text has one of these flaws, all the text before its position is a token, or all except the dot.
CUT = ('BadSuffix', 'TextAfterQuote', 'ExtraHash', 'NoFractionDigit')
# Kinds of flaws, and the starts of rustc's messages with the same meaning.
MEANINGS = [
    (['CarriageReturn'], ['bare CR not allowed in raw string', 'bare CR not allowed in string, use ']),
    (['BasedFloat', 'InvalidDigit'], ['binary float literal is not supported', 'octal float literal is not supported']),
    (['BasedFloat'], ['hexadecimal float literal is not supported']),
    (['MustEscape', 'NoCharacter'], ['byte constant must be escaped', 'character constant must be escaped']),
    (['TwoCharacters', 'MustEscape'], ['character literal may only contain one codepoint']),
    (['NoCharacter'], ['empty character literal']),
    (['EmptyBraces', 'NoUnicode'], ['empty unicode escape']), (['NoBrace', 'NoUnicode'], ['incorrect unicode escape sequence']),
    (['NoExponentDigit', 'BasedFloat', 'InvalidDigit'], ['expected at least one digit in exponent']),
    (['NoQuote', 'UnexpectedEnd', 'TooManyHashes'], ['found invalid character; only ']), (['TooManyHashes'], ['too many ']),
    (['NoHexDigit'], ['invalid character in numeric character escape', 'invalid character in unicode escape',
                      'invalid start of unicode escape']),
    (['TooLarge'], ['integer literal is too large']), (['NoDigits'], ['no valid digits found for number']),
    (['InvalidDigit'], ['invalid digit for a base 2 literal', 'invalid digit for a base 8 literal']),
    (['UnicodeEscapeOutOfRange', 'Surrogate'], ['invalid unicode character escape']),
    (['TwoCharacters', 'Unclosed', *CUT], ['lifetimes cannot start with a number']),
    (['NotAscii'], [f'non-ASCII character in {kind} literal' for kind in ('byte', 'byte string', 'raw byte string')]),
    (['Nul'], ['null characters in C string literals are not supported']),
    (['NoHexDigit', 'HexEscapeOutOfRange'], ['numeric character escape is too short']),
    (['HexEscapeOutOfRange'], ['out of range hex escape']), (['TooManyDigits', *EARLIER], ['overlong unicode escape']),
    (['UnderscoreSuffix', 'BadSuffix', 'TextAfterQuote'], ['underscore literal suffix is not allowed']),
    (['NoUnicode'], ['unicode escape in byte string']), (['UnknownEscape'], ['unknown byte escape', 'unknown character escape']),
    (['NoHexDigit', *EARLIER], ['unterminated unicode escape']),
]
KINDS = {start: kinds for kinds, starts in MEANINGS for start in starts}


def short(message):
    """Returns the start of a message of rustc, up to the part about one text."""
    return re.split('[`:]', message)[0]


def kinds(message):
    """Returns the kinds of flaws with the meaning of the message, or none if it is about something else."""
    is_return = re.match(r'unknown (character|byte) escape: `\\r`', message)
    return [*KINDS.get(short(message), []), *(['CarriageReturn'] if is_return else [])]
