"""Writes the attributes that control the inlining of functions in the rendered core, so that unoptimized code stays small, and so
that a build of the package doesn't compile what no caller uses.

rustc obeys `#[inline(always)]` in unoptimized builds too, and copies the function into each of its callers. A copy of a small
function takes little more space than a call of it, and less time. A large function is always inlined only if debug assertions are
off, as in release builds. tools/inlining.txt lists the functions that get `#[inline]`, and the reasons. No expression is changed.
"""

import re
from pathlib import Path

from uncalled import fail

LIST = Path(__file__).resolve().parent / "inlining.txt"
ENTRY = re.compile(r"(\+ )?(\S+) ((?:\w+|\*)(?:, \w+)*): \S.*")

# The largest number of lines in the body of a small function. In unoptimized builds a limit of four lines gives 0.85 of the code
# and up to 1.12 times the instructions of a limit of eight, and a limit of none gives 0.75 and up to 1.33. Inlining all functions
# gives 3.25 times the code, and no fewer instructions.
SMALL = 8

ALWAYS = re.compile(r"^( *)#\[inline\(always\)\]\n", re.M)
WHERE_RELEASED = "{0}#[cfg_attr(debug_assertions, inline)]\n{0}#[cfg_attr(not(debug_assertions), inline(always))]\n"
BY_ITSELF = "{0}#[inline]\n"


def listed():
    """Returns the functions that are left to the compiler, and those that are compiled by their callers, each as its file and its
    name. For all functions of a file, the name is `*`."""
    lines = [line for line in LIST.read_text().split("\n") if line and not line.startswith("#")]
    entries = [ENTRY.fullmatch(line) or fail(f"no entry: {line}", LIST) for line in lines]
    return [{(entry[2], name) for entry in entries if bool(entry[1]) == by_callers for name in entry[3].split(", ")}
            for by_callers in (False, True)]


def compiled_by_callers(text, function):
    """Returns the text with `#[inline]` before this function, or before each function without an attribute on inlining if
    `function` is `*`. None is returned if there is no such function."""
    name = r"\w+" if function == "*" else function
    head = re.compile(rf"((?:^ *#\[.*\]\n)*)^( *)((?:pub(?:\(crate\))? )?fn {name}\b)", re.M)

    def with_attribute(found):
        attributes, indent, function_head = found.groups()
        if function != "*":
            attributes = attributes.replace(f"{indent}#[inline(never)]\n", "")
        if "inline" in attributes:
            return found[0]
        return attributes + BY_ITSELF.format(indent) + indent + function_head
    changed = head.sub(with_attribute, text)
    return None if changed == text else changed


def body_lines(text, at, indent):
    """Returns the number of lines in the body of the function whose attribute ends at `at`, by the layout of its file."""
    begin = text.index("{", text.index("fn ", at)) + 1
    end = re.compile(rf"^{indent}\}}", re.M).search(text, begin).start()
    return text.count("\n", begin, end) - 1 if text[begin] == "\n" else 0


class Inlining:
    """The list of functions, and its application to rendered files, which are given by name."""

    def __init__(self):
        self.left, self.by_callers = listed()

    def attribute(self, name, text, found):
        """Returns the attribute that replaces an `#[inline(always)]` in the file."""
        indent = found[1]
        function = (name, re.compile(r"\bfn (\w+)").search(text, found.end())[1])
        if function in self.left:
            self.left.discard(function)
            return BY_ITSELF.format(indent)
        is_small = body_lines(text, found.end(), indent) <= SMALL
        return found[0] if is_small else WHERE_RELEASED.format(indent)

    def core(self, files):
        """Changes the files of the core, which must contain each listed function."""
        files = {name: ALWAYS.sub(lambda found: self.attribute(name, text, found), text) for name, text in files.items()}
        for name, function in sorted(self.by_callers):
            inside = {path: text for path, text in files.items() if path == name or name.endswith("/") and path.startswith(name)}
            changed = {path: new for path, text in inside.items() if (new := compiled_by_callers(text, function))}
            files.update(changed or fail(f"{name} has no function {function} that its callers can compile", LIST))
        for name, function in sorted(self.left):
            fail(f"{name} has no function {function} that is always inlined", LIST)
        return files
