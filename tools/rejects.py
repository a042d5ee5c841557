"""Tests the changes of sources that tools/render must reject: calls that could mean something else in Rust than in Rattle; words,
macros and impls that its output can't contain; entries of its lists that name nothing; and files of its two folders that it doesn't
write. It also tests changes of the renderer itself, by which its output loses or gets code. Each changed text takes the place of a
file when the file is read, and changed folders are copies. No file of the repository is written.

    python3 tools/rejects.py    prints each change that is rejected although it is valid, or isn't rejected, in 10 s; the last line
                                counts both
"""
import contextlib
import importlib.machinery
import importlib.util
import io
import itertools
import os
import pathlib
import sys
import tempfile
from unittest import mock

sys.dont_write_bytecode = True

TOP = pathlib.Path(__file__).resolve().parent.parent
LINE, BARE = 'crates/rl_program/src/line.rt', 'bytes.iter().all('
IDENT, ALL = 'crates/rl_syntax/src/ident.rt', 'text.chars().all('
DEEP = 'crates/rl_attributes/src/attributes/name.rt'
UNCALLED, INLINING = 'tools/uncalled.txt', 'tools/inlining.txt'
# A file, a text in it, the text that replaces it, and a word of the error (None: the change is accepted).
TRIED = [(LINE, BARE, f'bytes{call}.iter().all(', word) for call, word in [
    ('', None), ('.to_vec()', 'to_vec'), ('.frobnicate()', 'frobnicate'), ('.frobnicate::<u8>()', 'frobnicate'),
    ('.to_vec::<u8>()', 'to_vec'), ('. frobnicate()', 'frobnicate'), ('\n    .frobnicate()', 'frobnicate')]]
TRIED += [(LINE, BARE, f'{call}(bytes).iter().all(', word or call) for call, word in [
    *((f'{name}::odd', None) for name in ('str', 'char', 'bool', 'usize', 'isize', *(f'{sign}{bits}' for sign in 'iu' for bits in (8, 16, 32, 64, 128)))),
    ('u8::from_str_radix', None), ('str::from_utf8_mut', None), ('u64::from_le', None), ('u128::pow', None), ('Box::new', 'Box')]]
TRIED += [(IDENT, ALL, f'{text}.chars().all(', word) for text, word in [
    ('text', None), ('text.to_lowercase()', 'to_lowercase'), ('String::new(text)', 'String')]]
# A file in a folder of its crate.
TRIED += [(DEEP, 'impl', 'impl', None), (DEEP, '\nimpl', '\nunsafe impl', "{'unsafe'}")]
# Entries of the list of uncalled items whose file, function, method, module or variant doesn't exist; lines that aren't entries.
TRIED += [(UNCALLED, *change) for change in [
    ('body_unit', 'body_unit', None), ('kind.rs Kind::description', 'kinds.rs Kind::description', 'kinds.rs'),
    ('Kind::description', 'Kind::descriptions', 'Kind::descriptions'), ('Kind::description', 'Sort::description', 'Sort::description'),
    ('char_of_body, body_unit', 'char_of_body, body_units', 'body_units'),
    ('- rl_strict/flaws.rs Flaw::piece_in_span', '- rl_strict/flaws.rs Flaw::text_in_span', 'text_in_span'),
    ('rl_syntax/span.rs *', 'rl_syntax/spans.rs *', 'spans.rs'), ('LexKind::{Memory}', 'LexKind::{Room}', 'Room'),
    ('LexKind::{Memory}', 'Lex::{Memory}', 'Lex::'), ('Kind::struct_name: ', 'Kind::struct_name ', 'no entry'),
    ('Kind::description, ', 'Kind::description; ', 'no entry'),
    ('lanes.rs * with sources or settings', 'lanes.rs * with sources, settings', 'no entry'),
    ('run_class, ', 'run_classes, ', 'run_classes'), ('skip_id_continue with', 'skip_words with', 'skip_words'),
]]
# Entries of the list of inlined functions whose file or function doesn't exist, or isn't always inlined; and a line that isn't an
# entry. After a plus: functions that their callers compile, where the file, the crate or the function doesn't exist, or the
# function is inlined already.
TRIED += [(INLINING, *change) for change in [
    ('skip_raw_characters', 'skip_raw_characters', None),
    ('strict.rs skip_raw_characters', 'strictly.rs skip_raw_characters', 'strictly.rs'),
    ('strict.rs skip_raw_characters', 'strict.rs skip_outside', 'skip_outside'),
    ('strict.rs skip_raw_characters', 'strict.rs skip_units', 'skip_units'),
    ('skip_raw_characters: ', 'skip_raw_characters ', 'no entry'),
    ('+ rl_cursors/ranges.rs *', '+ rl_cursors/range.rs *', 'range.rs'),
    ('+ rl_flaws/ *', '+ rl_flaw/ *', 'rl_flaw/'), ('found.rs parse_number_literal, ', 'found.rs find_numbers, ', 'find_numbers'),
    ('strict_reading.rs read_rare', 'strict_reading.rs read_next', 'read_next'),
    ('strict_reading.rs read_rare', 'strict_reading.rs number_at', 'number_at'),
]]

# The texts before which items are inserted, in a file of the core and in one above it.
CORE_PLACE, PLACE = 'fn all_continue(', 'fn is_bare'
# Items whose meaning, memory, linkage or layout rustc decides. The word of each item is rejected wherever it occurs.
WORDS = {
    'dyn': 'fn odd(it: &dyn Fn()) {}', 'unsafe': 'unsafe fn odd() {}', 'extern': 'extern fn odd() {}',
    'static': 'static ODD: u8 = 1;', 'union': 'union Odd { odd: u8 }', 'async': 'async fn odd() {}', 'await': 'fn odd() { odd.await }',
    'macro_rules': 'macro_rules! odd { () => {} }', 'transmute': 'const ODD: usize = transmute(1);',
    'size_of': 'const ODD: usize = size_of::<u8>();', 'align_of': 'const ODD: usize = align_of::<u8>();',
}
CORE_MEMORY = ['Allocator', 'AllocError', 'Global', 'String', 'Vec', 'Box']
RUSTS_OWN = ['Box', 'Rc', 'Arc', 'Cow', 'ToString', 'ToOwned']
# Macros of Rust's std that no file may use, and those that only the core may not use.
MACROS = """assert assert_eq assert_ne cfg column compile_error concat dbg debug_assert debug_assert_eq env eprint eprintln file format_args
    include include_bytes include_str line module_path option_env panic print println stringify thread_local todo
    unimplemented""".split()
CORE_MACROS = [*MACROS, 'format', 'write', 'writeln', 'vec', 'prove']
CORE_IMPLS = {
    'Clone': 'impl Clone for Odd {\n}', 'BitOr': 'impl<T> core::ops::BitOr for Odd<T> {\n}', 'From': 'impl From<u8> for Odd {\n}',
    'PartialEq': 'impl<T: Fn(u8) -> u8> PartialEq<Odd<T>> for Odd<T> {\n}', 'Add': 'impl<T>\nops::Add<T>\nfor Odd {\n}',
    **{name: f'impl {name} for Odd {{\n}}' for name in ('Hash', 'Ord', 'PartialOrd', 'Eq', 'Deref', 'DerefMut', 'Not', 'Neg', 'Default', 'AsRef',
                                                        'Borrow', 'Debug', 'TryFrom', 'IntoIterator', 'Hasher', 'Write', 'FromStr')},
}
# Code that both languages accept, but with another meaning, each with the reason why it is rejected: a row for each line of the lists
# of the kit's pages FROM_RUST.md and MACROS.md, and for the two cases of LANGUAGE.md. The reason of the macros is in the rows above.
SILENT = [
    ('fn odd() { v.iter().map(|s| s.clone()) }', '`clone()`'), ('fn odd() { v.iter().map(Clone::clone) }', '`clone()`'),
    ('fn odd() { s . clone ( ) }', '`clone()`'), ('fn odd() -> Result<(), fmt::Error> {\n}', '`fmt::Error`'),
    ('fn odd() -> anyhow::Error {\n}', "{'anyhow'}"), ('use anyhow::Error;', "{'anyhow'}"),
    ('fn odd() { thread::spawn(rt, odd) }', "{'thread'}"), ('fn odd() { odd.try_send(1) }', "{'try_send'}"),
    ('fn odd() { odd.try_recv() }', "{'try_recv'}"), ('fn odd() { (250u8..).take(9) }', 'a range without an end'),
    ('fn odd() { for n in 250u8.. {\n} }', 'a range without an end'), ('fn odd() { let all = 250u8..; }', 'a range without an end'),
    ('impl<T> Odd<&T> {\n}', 'some arguments'), ("impl<'a, T> Odd<&'a T> {\n}", 'some arguments'),
    ('fn odd<T: Index<usize>>(w: W<T::Output>) {}', "{'Index'}"), ('impl<T> A for Once<T> {\n}', 'some arguments'),
    ('impl A for num::TryFromIntError {\n}', 'some arguments'), ('impl A for Infallible {\n}', 'some arguments'),
    ('impl<X: Clone> A for X {\n}', 'an impl for all types'), ('fn odd() { size_of::<fn()>() }', "{'size_of'}"),
    ('trait Odd {\n    fn odd();\n    fn len(&self) -> usize;\n}', 'a method of a trait'),
    ('fn odd() { if let (E::A([p, q]), Some(r)) = (x, y) {\n} }', 'an array in a pattern'),
    ('fn odd() { while let Some([p, q]) = x {\n} }', 'an array in a pattern'), ('fn odd() { S { a: 1, ..v[i] } }', 'other fields'),
    ('impl<T> Drop for Odd<T> {\n}', 'an impl of `Drop`'),
]
LEFT = {
    **{f"{{'{word}'}}": f'fn {word}() {{}}' for word in ('ghost', 'requires', 'ensures')}, "{'Model'}": 'fn odd(it: Model) {}',
    'True': 'fn \u00e9() {}',
}
# Items that aren't rejected, in the core and above it.
CORE_FINE = ['fn odd() -> bool { matches!(1, 1) }', 'impl fmt::Display for Odd {\n}', "impl<'t> Iterator for Odd<'t> {\n}",
             'impl core::error::Error for Odd {\n}', '// unsafe\nconst ODD: &str = "static";']
FINE = ['trait Odd {}', 'impl From<u8> for Odd {\n}', 'fn odd() { write!(format!(in 1; "")) }', 'fn odd(it: String, all: Vec<Global>) {}']

# The changes that insert an item into a file, each with the reason why it is rejected.
BOTH = [*((item, f"rejected: {{'{word}'}}") for word, item in WORDS.items()),
        *((item, f'left: {words}') for words, item in LEFT.items())]
TRIED += [(IDENT, CORE_PLACE, f'{item}\n\n{CORE_PLACE}', said) for item, said in [
    *BOTH, ('trait Odd {}', "traits: {'Odd'}"), *((item, None) for item in CORE_FINE),
    *((f'fn odd(it: {word}) {{}}', f"takes memory: {{'{word}'}}") for word in CORE_MEMORY),
    *((f'fn odd() {{ {word}!(1) }}', f"macros: {{'{word}'}}") for word in CORE_MACROS),
    *((item, f"traits: {{'{word}'}}") for word, item in CORE_IMPLS.items()),
]]
TRIED += [(LINE, PLACE, f'{item}\n\n{PLACE}', said) for item, said in [
    *BOTH, *((item, None) for item in FINE),
    *((f'fn odd(it: {word}) {{}}', f"rejected: {{'{word}'}}") for word in RUSTS_OWN),
    *((f'fn odd() {{ {word}!(1) }}', f"macros: {{'{word}'}}") for word in MACROS), *SILENT,
    ('fn odd() { line![] }', "macros: {'line'}"), ('fn odd() { concat! { } }', "macros: {'concat'}"),
]]

# A file, and a text of its source that the renderer changes by mistake. It must report the line.
CHANGES = [
    # Something is added. Two words, and two statements, change places.
    (IDENT, 'false,', 'false odd,'), (IDENT, '|c| ', '|c| !'), (IDENT, 'pub fn xid_ok', 'fn pub xid_ok'),
    (LINE, '    push(out, word)?;\n    push(out, " ")?;', '    push(out, " ")?;\n    push(out, word)?;'),
    # An operand, a method, a match arm, a parameter or a statement is lost.
    (IDENT, "first == '_' || ", ''), (IDENT, '.chars()', ''), (IDENT, '        None => false,\n', ''),
    (IDENT, 'all_continue(text: &str', 'all_continue('), (IDENT, '    text.chars().all(|c| is_xid_continue(c))\n', ''),
    (LINE, ' && byte < 127', ''), (LINE, '        Kind::Char => "Char",\n', ''), (LINE, 'return push', 'push'),
    (LINE, '    push(out, shown)?;\n', ''), (LINE, '    out.push_str(piece)?;\n', ''), (LINE, '!= b\'"\'', '!= b\'\''),
    # A text, a constant or an attribute is lost.
    (LINE, '"Verbatim", text', '"", text'), (LINE, 'const END: &str = "\\" -\\n";\n', ''), (LINE, '#[inline(never)]\n', ''),
]


def change_modules(folder, change):
    """Changes the list of modules of the folder."""
    path = folder / 'mod.rs'
    path.write_text(change(path.read_text()))


def write(path):
    """Writes an empty file, and the folders that it is in."""
    path.parent.mkdir(parents=True)
    path.write_text('')


def linked(folder):
    """Replaces a folder by a link to another one with the same files."""
    one = next(path for path in sorted(folder.iterdir()) if path.is_dir())
    one.rename(folder.parent / f'{folder.name}.{one.name}')
    one.symlink_to(folder.parent / f'{folder.name}.{one.name}')


# A change of a folder of rendered files, and a word of the error that is reported (nothing: there is no error).
FOLDERS = [
    (lambda folder: None, None),
    (lambda folder: (folder / 'odd.rs').write_text(''), 'odd.rs'),
    (lambda folder: (folder / 'odd.txt').write_text(''), 'odd.txt'),
    (lambda folder: (next(folder.glob('*/')) / 'odd.rs').write_text(''), 'odd.rs'),
    (lambda folder: (folder / 'odd').symlink_to(folder), 'odd'),
    (lambda folder: (folder / 'mod.rs').unlink(), 'mod.rs'),
    (lambda folder: next(folder.glob('*/mod.rs')).unlink(), 'mod.rs'),
    (lambda folder: next(folder.glob('*/mod.rs')).write_text(''), 'mod.rs'),
    # One module comes from another file, and the last module is missing.
    (lambda folder: change_modules(folder, lambda text: text.replace('pub mod', '#[path = "../odd/mod.rs"]\npub mod', 1)), 'mod.rs'),
    (lambda folder: change_modules(folder, lambda text: text.rsplit('pub mod', 1)[0]), 'mod.rs'),
    (linked, 'mod.rs'),
    (lambda folder: write(folder / 'odd/odd/odd.rs'), 'odd/odd/odd.rs'),
]


def render_itself():
    """Returns tools/render as a module."""
    loader = importlib.machinery.SourceFileLoader('render', str(TOP / 'tools/render'))
    module = importlib.util.module_from_spec(importlib.util.spec_from_loader('render', loader))
    loader.exec_module(module)
    return module


def changed(file, old, new):
    """Returns a context in which reading the file returns its text with one change."""
    read, path = pathlib.Path.read_text, TOP / file
    text = path.read_text()
    if old not in text:
        sys.exit(f'rejects: {file} has no {old}')
    text = text.replace(old, new, 1)
    return mock.patch.object(pathlib.Path, 'read_text', lambda it, *words, **more: text if it == path else read(it, *words, **more))


def said_of(call, *words):
    """Returns the error of the call, or None if the call accepts the texts."""
    try:
        call(*words)
    except SystemExit as end:
        return str(end.code)
    return None


def render_file(render, file):
    """Renders a source file, and checks its calls."""
    part = render.rendered if file == IDENT else render.rendered_program
    render.check_methods({file: part(file.split('/')[1], TOP / file)})


def try_texts(render):
    """Tests the changes of texts. Iterates over their descriptions, their errors, and the expected words of these."""
    core = render.files_of(render.families()[0], render.rendered)
    for file, old, new, word in TRIED:
        with changed(file, old, new):
            if file in (LINE, IDENT):
                said = said_of(render_file, render, file)
            elif file == DEEP:
                said = said_of(render.files_of, ['rl_attributes'], render.rendered_program)
            else:
                said = said_of(render.core_files, core)
        yield f'{file}: {new}', said, word


def try_changes(render):
    """Tests changes that the erasers make, and those that the lists of uncalled and inlined functions make."""
    last = render.erase_models
    for (file, old, new), is_tried in itertools.product(CHANGES, (False, True)):
        source, crate = (TOP / file).read_text(), file.split('/')[1]
        line = source[:source.index(old) + len(os.path.commonprefix([old, new]))].count('\n') + 1

        def changed_text(text):
            return text.replace(old, new, 1) if is_tried else text
        with mock.patch.object(render, 'erase_models', lambda text: changed_text(last(text))):
            said = said_of(render_file, render, file)
        yield f'an eraser that writes {new!r} for {old!r} in {file}', said, f'{file}, line {line}: lost or added' if is_tried else None
        if old.startswith('#'):
            continue
        part, listed = (render.rendered, render.core_files) if file == IDENT else (render.rendered_program, render.files_above)
        with contextlib.ExitStack() as patched:
            for owner, name in (render.Uncalled, 'core'), (render.Inlining, 'core'), (render.Uncalled, 'above'):
                patched.enter_context(mock.patch.object(
                    owner, name, lambda _, files: {name: changed_text(text) for name, text in files.items()}))
            said = said_of(listed, {crate: part(crate, TOP / file)})
        yield f'a list that writes {new!r} for {old!r} in {file}', said, 'lost or added' if is_tried else None


def report_of(render):
    """Returns the report of --check on the two folders, or nothing if the check passes."""
    with contextlib.redirect_stdout(io.StringIO()) as printed:
        code = said_of(render.main)
    reports = [line for line in printed.getvalue().split('\n') if line.endswith("isn't what tools/render writes")]
    if code == 'False' and not reports:
        return None
    return '; '.join(reports) if code == 'True' else f'status {code}; {reports}'


def try_folders(render):
    """Tests copies of the two folders, each with one change."""
    both = [render.core_files(), render.program_files()]
    render.core_files, render.program_files = (lambda: both[0]), (lambda: both[1])
    sys.argv = ['render', '--check']
    for at, (change, word) in enumerate(FOLDERS):
        for number in 0, 1:
            with tempfile.TemporaryDirectory() as temporary:
                render.OUT, render.PROGRAMS_OUT = folders = [pathlib.Path(temporary) / name for name in ('core', 'programs')]
                for folder, files in zip(folders, both):
                    for name, text in files.items():
                        (folder / name).parent.mkdir(parents=True, exist_ok=True)
                        (folder / name).write_text(text)
                change(folders[number])
                said = report_of(render)
            yield f'{folders[number].name}, change {at}', said, word


def main():
    render, tried, wrong = render_itself(), 0, 0
    for what, said, word in itertools.chain(try_texts(render), try_changes(render), try_folders(render)):
        tried += 1
        if said is not None if word is None else word not in (said or ''):
            wrong += 1
            print(f'{what}: {said or "it is not rejected"}')
    print(f'rejects: {tried} tried, {wrong} wrong')
    sys.exit(wrong > 0)


if __name__ == '__main__':
    main()
