"""Creates a tree of unusual files for rl_scan: unusual names, links, files that aren't text, and sources of every kind."""
import itertools
import os
import stat
from pathlib import Path

import source_texts
import texts
from model.sources import cut_source

DEEP = 300
HIDING = '''let a = "x\u202e\u2066"; // \u202e
let b = '\u200b';
let c\u00ad = r"\ufeff";
let d = "\\u{202e}"; /* \u2069 */ b"a\u200d" "\u3164"
'''
# The sources by their names, without the ending.
SOURCES = {
    'kinds': '\n'.join(texts.WORKED[3:60]),
    'bad': '\n'.join(source_texts.ODD[20:]),
    'odd': ' '.join(source_texts.ODD),
    'held': '"room" r"room" b"ro\\x6fm" c"r\\u{6f}om" \'r\' b\'o\' "ro\\\n om" "=" "" 114',
    'hiding': HIDING,
    'wide': '\u00e9\u8a9e\U0001f600 = "\u00e9"; \u8a9e = \'\U0001f600\'; /* \u00e9 */ b"\u00e9" 1\n',
    'stray': '1 \u2261 "a" \\ ` 2 \u00b7 3',
    'cr': 'let a = "b\rc"; // d\re\n/* f\r */ "\\\r"',
    'nul': 'let a = "\0"; \0 1 b"\0" c"\0" \'\0\'\n',
    'controls': '"\x01\x1b[31m\x7f\x85" 1 \x1b',
    'front': '#!/bin/sh -x "\n1 "a"',
    'attribute': '#![a = "b"] 1',
    'empty': '',
    'blank': ' \n\t\r\n',
    'comments': '// "a"\n/* \'b /* c */ */\n/// "d"\n',
    'not_text': b'let a = "b";\n"\xff" 1 2\n',
    'cut': b'"a" 1 \xf0\x9f\x98',
    'open': 'let a = "b"; let c = "d',
    'open_raw': '1 r##"a"# b',
    'open_block': '1 /* "a" /* */',
    'open_byte': "b'a",
    'long': 'let a = "' + 'abc\\n\u20ac' * 9_000 + '"; "b"',
    'row': '1, "a", \'b\', 0xFFu8, 1.5e3, ' * 1_000,
    'digits': '9' * 3_000 + ' 0x' + 'F' * 40 + ' 1e' + '9' * 500,
    'nested': '(["a", ' * DEEP + '1' + '])' * DEEP,
    'blocks': '/*' * DEEP + '*/' * DEEP + ' "a"',
    'hashes': 'r' + '#' * DEEP + '"a"#' + '#' * DEEP + ' 1',
    'last': '1',
}
# Paths that are unusual themselves, or that rl_scan doesn't visit in a folder.
NAMED = [
    'with space.rs', 'with\nline.rs', 'with\ttab\x1b[31m.rs', '\'q"uo\\te\'.rs', '\u00e9\u8a9e\U0001f600.rs', 'hid\u202ee.rs',
    b'named/not\xfftext.rs', '-x.rs', '--bad.rs', '.hidden.rs', '.hidden/a.rs', 'target/a.rs', 'b/target/a.rs', 'no_ending',
    'a.RS', 'a.rs.txt', '.rs', 'folder.rs/a.rs', 'deep/' * 40 + 'a.rs',
]
LINKS = {
    'link.rs': 'a.rs', 'link_folder': 'b', 'broken.rs': 'nowhere.rs', 'loop': '.', 'loop.rs': 'loop.rs', 'null.rs': '/dev/null',
    'soups/up.rs': '../kinds.rs',
}
EMPTY, LOCKED, LOCKED_FILE, SOCKET = 'none', 'locked', 'locked.rs', 'socket.rs'
# Paths that calls name in addition to the files.
OTHER_PATHS = [
    '.', './', './/a.rs', 'b/../a.rs', '../tree/b', 'b//', 'a.rs/', 'a.rs/x', 'missing', 'missing.rs', 'missing/', '', '/dev/null',
    'x' * 300, 'soups', 'soups', 'deep', b'\xff', b'\xed\xa0\x80', EMPTY, LOCKED, LOCKED_FILE, SOCKET, *LINKS,
]


def whole_soups(source, count):
    """Returns soups joined with lines between them, each of which is a whole source by itself."""
    every = (source_texts.sound(source) for _ in itertools.count())
    return '\n'.join(itertools.islice((it for it in every if not cut_source(it).error), count))


def contents(source):
    """Returns the files of the tree as bytes, by path."""
    soup = whole_soups(source, 40)
    made = {'a.rs': soup, 'b/c.rs': whole_soups(source, 8), 'b/d/e.rs': whole_soups(source, 8)}
    made |= {'crlf.rs': soup.replace('\r', '').replace('\n', '\r\n'), 'bom.rs': '\ufeff' + whole_soups(source, 3)}
    made |= {f'{name}.rs': text for name, text in SOURCES.items()}
    made |= {path: f'{at} "named" \'{at}\' 0b{at} "\\q"' for at, path in enumerate(NAMED)}
    made |= {f'soups/{at:02}.rs': text for at, text in enumerate(source_texts.soups(source.random(), 40))}
    return {os.fsencode(path): data.encode() if isinstance(data, str) else data for path, data in made.items()}


def make_tree(top, source):
    """Creates the tree in a folder. Returns its files by path."""
    made = contents(source)
    for path, data in made.items():
        whole = Path(top, os.fsdecode(path))
        whole.parent.mkdir(parents=True, exist_ok=True)
        whole.write_bytes(data)
    for name, to in LINKS.items():
        os.symlink(to, os.path.join(top, name))
    os.mkdir(os.path.join(top, EMPTY))
    os.mknod(os.path.join(top, SOCKET), 0o600 | stat.S_IFSOCK)
    # Only a superuser can read these two.
    os.mkdir(os.path.join(top, LOCKED), 0)
    os.mknod(os.path.join(top, LOCKED_FILE), 0)
    return made
