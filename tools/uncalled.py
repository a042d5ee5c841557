"""Marks the items of the rendered core that the package `navyspindle` doesn't call in each set of features, or leaves them out.
tools/uncalled.txt lists these items, and states what each line of the list changes. No expression is changed.
"""

import re
import sys
import textwrap
from pathlib import Path
from typing import NamedTuple

LIST = Path(__file__).resolve().parent / "uncalled.txt"
CRATE = re.compile(r"(\w+)/ with (\w+(?: or \w+)*)")
ITEM = r"\w+(?:::\w+)?(?=[,: ])"
ENTRY = re.compile(
    rf"(- )?(\S+) (\*|impl \w+ for \w+|\w+::\{{\w+(?:, \w+)*\}}|{ITEM}(?:, {ITEM})*)(?: with (\w+(?: or \w+)*))?: (\S.*)")

# The feature of the programs, which enables all others.
PROGRAMS = "__rendered"

# The attribute that is written before an enum.
EXPECTATION = '#[cfg_attr(not(feature = "__rendered"), expect(dead_code, reason = "{why}"))]\n'

# An import: its path, and the one name or the several names.
USE = re.compile(r"^(pub(?:\(crate\))? |)use ([\w:]+)::(?:(\w+)|\{([\w,\s]+)\});\n", re.M)

# The largest width of a line of imports.
WIDTH = 100


class Entry(NamedTuple):
    """A line of the list."""
    file: str
    item: str
    features: tuple
    why: str
    is_left_out: bool


def fail(what, path=LIST):
    sys.exit(f"render: tools/{path.name}: {what}")


def features():
    """Returns the features with which crates are compiled that aren't always compiled, by crate."""
    found = map(CRATE.fullmatch, LIST.read_text().split("\n"))
    return {crate[1]: crate[2].split(" or ") for crate in found if crate}


def listed():
    """Returns the entries of the list."""
    entries = []
    for line in LIST.read_text().split("\n"):
        if not line or line.startswith("#") or CRATE.fullmatch(line):
            continue
        entry = ENTRY.fullmatch(line)
        if not entry or entry[1] and re.search(r"[*{]", entry[3]):
            fail(f"no entry: {line}")
        by = tuple((entry[4] or PROGRAMS).split(" or "))
        items = [entry[3]] if "{" in entry[3] else entry[3].split(", ")
        entries += [Entry(entry[2], item, by, entry[5], bool(entry[1])) for item in items]
    return entries


def attribute_of(features):
    """Returns the attribute that compiles an item only with one of these features. Without features there is none."""
    found = [f'feature = "{it}"' for it in features]
    condition = found[0] if len(found) == 1 else "any(" + ", ".join(found) + ")"
    return f"#[cfg({condition})]\n" if found else ""


def front_of(text, at, form):
    """Returns the start of the lines of this form directly before the line at `at`."""
    return re.search(rf"(?:^{form}\n)*\Z", text[:at], re.M).start()


def span_of(text, entry):
    """Returns the start of the entry's function, struct or impl, with its attributes, and its end, by the layout of its file."""
    owner, _, name = entry.item.rpartition("::")
    indent, types = " " * 4 * bool(owner), r"(?:<[^{]*?>)?"
    impl = rf"^impl{types} {owner}{types} \{{\n(?:(?!\}}).*\n)*?" * bool(owner)
    head = rf"impl{types} {name[5:]}{types} \{{" if name.startswith("impl ") else rf"(?:pub(?:\(crate\))? )?(?:fn|struct) {name}\b"
    found = re.search(rf"{impl}^(?P<head>{indent}{head})", text, re.M) or fail(f"{entry.file} has no {entry.item}")
    end = re.compile(rf"^{indent}\}}\n", re.M).search(text, found.end()).end()
    return front_of(text, found.start("head"), r" *#\[.*\]"), end


def without(text, entry):
    """Returns the text without the entry's function and its documentation. Of two empty lines that then meet, one is kept."""
    start, end = span_of(text, entry)
    front, back = text[:front_of(text, start, " *///.*")], text[end:]
    return front.removesuffix("\n") + back if front.endswith("\n\n") else front + back.removeprefix("\n")


def with_expectation(text, entry):
    """Returns the text with an attribute by which rustc expects that these variants of an enum are never created, and reports if
    they are."""
    name, variants = re.fullmatch(r"(\w+)::\{(.*)\}", entry.item).groups()
    found = re.search(rf"^(?:pub )?enum {name} \{{\n((?:(?!\}}).*\n)*)", text, re.M)
    if not found or not set(variants.split(", ")) <= set(re.findall(r"^    (\w+)", found[1], re.M)):
        fail(f"{entry.file} has no variants {entry.item}")
    at = front_of(text, found.start(), r"#\[.*\]")
    return text[:at] + EXPECTATION.format(why=f"{variants}: {entry.why}") + text[at:]


def import_of(visibility, path, names):
    """Returns the import of these names, laid out as in the sources."""
    line = f"{visibility}use {path}::{names[0] if len(names) == 1 else '{' + ', '.join(names) + '}'};\n"
    if len(line) <= WIDTH:
        return line
    rows = textwrap.fill(", ".join(names) + ",", WIDTH, initial_indent="    ", subsequent_indent="    ")
    return f"{visibility}use {path}::{{\n{rows}\n}};\n"


def with_imports(text, features_of, is_left_out):
    """Returns the text with separate imports for the names that `features_of` returns features for, and without the imports that
    are left out."""
    def parted(use):
        visibility, path, one, several = use.groups()
        names = [one] if one else re.findall(r"\w+", several)
        groups = {(): []}
        for name in names:
            if not is_left_out(path, name):
                groups.setdefault(features_of(visibility, path, name), []).append(name)
        if groups[()] == names:
            return use.group()
        return "".join(attribute_of(by) + import_of(visibility, path, part) for by, part in groups.items() if part)
    return USE.sub(parted, text)


def words_of(code):
    return set(re.findall(r"\w+", re.sub(r"//.*", "", code)))


class Uncalled:
    """The list of items, and its application to rendered files, which are given by name."""

    def __init__(self):
        self.entries = listed()
        self.whole = {entry.file: entry.features for entry in self.entries if entry.item == "*"}
        self.apart = {(entry.file, entry.item): entry.features for entry in self.entries if not entry.is_left_out}
        self.left_out = {(entry.file.split("/")[0], entry.item) for entry in self.entries if entry.is_left_out}

    def modules(self, names):
        """Returns the declarations of the modules of these crates."""
        by_feature = features()
        for unknown in by_feature.keys() - set(names):
            fail(f"no crate {unknown}")
        return "".join(attribute_of(by_feature.get(name, [])) + f"pub mod {name};\n" for name in names)

    def is_left_out(self, path, name):
        """Whether the import is of an item that is left out, by its module or by its crate."""
        crate = re.match(r"(?:crate::)?(\w+)", path)[1]
        return (crate, name) in self.left_out

    def parted(self, name, text):
        """Returns the changed file of the core."""
        here = [entry for entry in self.entries if entry.file == name and entry.item != "*"]
        for entry in here:
            if entry.is_left_out:
                text = without(text, entry)
            elif "{" in entry.item:
                text = with_expectation(text, entry)
        spans = [(*span_of(text, entry), entry) for entry in here if not entry.is_left_out and "{" not in entry.item]
        spans.sort(key=lambda span: span[:2])
        own, users = USE.sub("", text), {}
        for start, end, entry in spans:
            own = own.replace(text[start:end], "", 1)
            for word in words_of(text[start:end]):
                users.setdefault(word, {}).update(dict.fromkeys(entry.features))
        own = words_of(own)

        def features_of(visibility, path, item):
            file = path.removeprefix("crate::").replace("::", "/") + ".rs"
            if visibility:
                return self.whole.get(file) or self.apart.get((file, item), ())
            return () if item in own else tuple(users.get(item, ()))

        for start, _, entry in reversed(spans):
            indent = re.match(" *", text[start:]).group()
            text = text[:start] + indent + attribute_of(entry.features) + text[start:]
        return with_imports(self.with_modules(name, text), features_of, self.is_left_out)

    def with_modules(self, name, text):
        """Returns the file with separate declarations of the modules that are listed as a whole."""
        folder = name.removesuffix("mod.rs")
        for file, by in self.whole.items():
            if name.endswith("/mod.rs") and file.startswith(folder):
                module = file.removeprefix(folder).removesuffix(".rs")
                text, count = re.subn(rf"^((?:pub )?mod {module};\n)", rf"{attribute_of(by)}\1", text, flags=re.M)
                if not count:
                    fail(f"{name} has no module {module}")
        return text

    def core(self, files):
        """Changes the files of the core, which must contain each listed item."""
        for entry in self.entries:
            if entry.file not in files:
                fail(f"{entry.file} isn't rendered")
        return {name: self.parted(name, text) for name, text in files.items()}

    def above(self, files):
        """Changes the files above the core, which must not import an item that is left out."""
        return {name: with_imports(text, lambda *_: (), self.is_left_out) for name, text in files.items()}
