"""Executes the functions that the prover checked, without the kit's compilers.

A built library has the file `toolchain/mir.json`: the code of its functions, in the form that the proof is about, and from which the
kit links programs. This module writes each function as a Python function when it is first called, once for each choice of type
arguments and of trait implementations. The kit's own libraries are executed in the same way. Only the allocation of memory is
written here (`allocate`, `reallocate`, `release`).

Values:
- An integer is its bit pattern, without a sign. A `bool` is a Python `bool`, and the unit is `()`.
- A struct is the tuple of its fields. A value of an enum is the tuple of its variant's number and the variant's fields.
- An array is a tuple, in which an element of N bytes has N places. The first place has the element. So an offset in bytes, by which
  the code moves pointers, is an index.
- A pointer is `Pointer(cells, at, path)`: the place in the list `cells` at the index `at`, and in the value of this place the field
  with the indices `path`. A pointer to an array is a pointer to its first element.

A result that is out of its type's range, a read of a place that was never written, and code that a proof excludes raise an exception.
"""
import json
from pathlib import Path

KIT = Path('/opt/rattle/rlibs')
ARRAYS = 'Array', 'Vector'


class Wrong(Exception):
    """A step that the proof excludes, or code that this module doesn't know."""


def unknown(what):
    raise Wrong(what)


class Pointer:
    """A place in memory."""
    __slots__ = ('cells', 'at', 'path')

    def __init__(self, cells, at, path=()):
        self.cells, self.at, self.path = cells, at, path

    def moved(self, by):
        """Returns the pointer that is `by` places further. `by` is the bit pattern of a signed number."""
        by = signed(by, 64)
        if self.path:
            return Pointer(self.cells, self.at, self.path[:-1] + (self.path[-1] + by,))
        return Pointer(self.cells, self.at + by)

    def field(self, *path):
        return Pointer(self.cells, self.at, self.path + path)

    def read(self):
        if self.at < 0:
            raise Wrong('a read before a block')
        value = self.cells[self.at]
        for field in self.path:
            value = value[field]
        return value

    def write(self, value):
        if self.path:
            value = with_field(self.cells[self.at], self.path, value)
        self.cells[self.at] = value

    def outer(self):
        """Returns the pointer to the array that contains this element, and the element's index."""
        return Pointer(self.cells, self.at, self.path[:-1]), self.path[-1]

    def read_array(self, size):
        """Returns the `size` places that begin here."""
        whole, at = self.cells, self.at
        if self.path:
            outer, at = self.outer()
            whole = outer.read()
        if at < 0 or at + size > len(whole):
            raise Wrong(f'{size} places at {at} of {len(whole)}')
        return tuple(whole[at:at + size])

    def write_array(self, array):
        if not self.path:
            self.cells[self.at:self.at + len(array)] = array
            return
        outer, at = self.outer()
        whole = outer.read() or ()
        whole += (None,) * (at + len(array) - len(whole))
        outer.write(whole[:at] + tuple(array) + whole[at + len(array):])

    def __eq__(self, other):
        return (id(self.cells), self.at, self.path) == (id(other.cells), other.at, other.path)


def with_field(value, path, new):
    """Returns the value with another field. Fields that were never written are `None`."""
    value, at = value or (), path[0]
    if len(value) <= at:
        value += (None,) * (at + 1 - len(value))
    if len(path) > 1:
        new = with_field(value[at], path[1:], new)
    return value[:at] + (new,) + value[at + 1:]


def padded(values, size):
    """Returns the places of an array's elements, if an element has `size` places."""
    return tuple(it for value in values for it in (value,) + (None,) * (size - 1))


def signed(pattern, width):
    return pattern - (1 << width) if pattern >> (width - 1) else pattern


def fit(number, width):
    """Returns an unsigned number, if the type has it."""
    if 0 <= number < 1 << width:
        return number
    raise Wrong(f'overflow: {number}')


def fit_signed(number, width):
    """Returns the bit pattern of a signed number, if the type has it."""
    if -(1 << width - 1) <= number < 1 << width - 1:
        return number % (1 << width)
    raise Wrong(f'overflow: {number}')


def inverted(value, width):
    return not value if isinstance(value, bool) else value ^ (1 << width) - 1


# The operations, as Python. `%1` and `%2` are the operands, `%w` is the width, and `%m` the largest number.
OPERATIONS = {
    'Eq': '(%1 == %2)', 'Ne': '(%1 != %2)', 'And': '(%1 & %2)', 'Or': '(%1 | %2)', 'Xor': '(%1 ^ %2)', 'Shl': '(%1 << %2 & %m)',
    'Offset': '%1.moved(%2)', 'PtrEq': '(%1 == %2)',
    'WrapAdd': '(%1 + %2 & %m)', 'WrapSub': '(%1 - %2 & %m)', 'WrapMul': '(%1 * %2 & %m)',
    'Lt Unsigned': '(%1 < %2)', 'Le Unsigned': '(%1 <= %2)', 'Shr Unsigned': '(%1 >> %2)', 'Div Unsigned': '(%1 // %2)',
    'Rem Unsigned': '(%1 % %2)', 'Add Unsigned': 'fit(%1 + %2, %w)', 'Sub Unsigned': 'fit(%1 - %2, %w)', 'Mul Unsigned': 'fit(%1 * %2, %w)',
    'Lt Signed': '(signed(%1, %w) < signed(%2, %w))', 'Le Signed': '(signed(%1, %w) <= signed(%2, %w))',
    'Shr Signed': 'fit_signed(signed(%1, %w) >> %2, %w)',
    'Add Signed': 'fit_signed(signed(%1, %w) + signed(%2, %w), %w)', 'Sub Signed': 'fit_signed(signed(%1, %w) - signed(%2, %w), %w)',
    'Not': 'inverted(%1, %w)', 'TrailingZeros': '((%1 & -%1).bit_length() - 1 if %1 else %w)', 'LeadingZeros': '(%w - (%1).bit_length())',
    'CountOnes': '(%1).bit_count()',
}


def operation(operator, width, *operands):
    """Returns an operation on integers of this width as Python."""
    if isinstance(operator, dict):
        (name, of), = operator.items()
        if name == 'Cast':
            value = f'signed({operands[0]}, {width})' if of[0] == 'Signed' else operands[0]
            return f'(int({value}) & {(1 << of[2]) - 1})'
        operator = f'{name} {of}'
    python = OPERATIONS.get(operator, f'unknown({operator!r})').replace('%w', str(width)).replace('%m', str((1 << width) - 1))
    for number, operand in enumerate(operands, 1):
        python = python.replace(f'%{number}', operand)
    return python


def key_of(type_, types=()):
    """Returns the type as nested tuples, without lifetimes, and with `types` in place of its parameters."""
    if not isinstance(type_, dict):
        return type_
    (form, of), = type_.items()
    if form == 'Param':
        return types[of] if types else (form, of)
    if form in ('Named', 'Struct'):
        return form, of[0]['name'] if form == 'Named' else of[0], tuple(key_of(it, types) for it in of[1])
    if form == 'Ref':
        return form, key_of(of[2], types)
    if form in ARRAYS:
        return form, key_of(of[0], types), key_of(of[1], types)
    if form == 'NumOf':
        return key_of(of[1], types)
    return form, of if isinstance(of, (int, str)) else json.dumps(of)


def number(type_):
    """Returns a number in a type's place."""
    return type_ if isinstance(type_, int) else int(type_[1])


def size_of(type_):
    """Returns the number of places that a type's value has in an array. Of an integer it is the number of bytes."""
    if type_[0] == 'Int':
        return type_[1] // 8
    if type_[0] == 'Array':
        return number(type_[2]) * size_of(type_[1])
    if type_[0] == 'Struct':
        return max(1, sum(map(size_of, type_[2])))
    return 1 if type_ in ('Bool', 'Unit') else 8


def width_of(type_):
    return type_[1] if type_ and type_[0] == 'Int' else 64


def forms_of(body):
    """Returns each statement of a body with its form."""
    return [(item, None) if isinstance(item, str) else next(iter(item.items())) for item in body]


def branch_count(body):
    """Returns the number of branches in a function's code."""
    return sum(2 if form == 'If' else len(of[1]) + of[2] if form == 'Switch' else 0 for form, of in forms_of(body))


class Writer:
    """Writes a function as Python, for given type arguments and trait implementations."""

    def __init__(self, library, function, types, dicts):
        self.library, self.function, self.types, self.dicts = library, function, types, dicts
        self.locals = [key_of(it['ty'], types) for it in function['locals']]
        self.shapes = {it['name']: it['shape'] for it in function['types']}
        self.lines, self.branches, self.loops = [], 0, 0
        # Locals to which the code has pointers are lists with one value.
        self.boxed, self.parted = set(), {0}
        for form, of in forms_of(function['body']):
            if form == 'Assign' and 'AddrOf' in of[1]:
                self.note(of[1]['AddrOf'], self.boxed)
            if form in ('Assign', 'LendStatic') and of[0]['steps']:
                self.note(of[0], self.parted)
            if form == 'Call' and of[2]['steps']:
                self.note(of[2], self.parted)

    @staticmethod
    def note(place, locals_):
        """Adds a place's local, unless the place is behind a pointer."""
        if not any('Deref' in step for step in place['steps'] if isinstance(step, dict)):
            locals_.add(place['local'])

    def python(self, name, branches):
        """Returns the function's definition. `branches` is the name of the array of executed branches."""
        self.taken = branches
        params = range(1, 1 + self.function['params'])
        self.line(0, f"def {name}({', '.join(f'v{it}' for it in params)}):")
        self.line(1, 'x = 0')
        for local in sorted(self.boxed | self.parted):
            value = f'v{local}' if local in params else None
            if local in self.boxed or value is None:
                self.line(1, f'v{local} = ' + (f'[{value}]' if local in self.boxed else 'None'))
        self.items = iter(self.function['body'])
        self.statement(1)
        return '\n'.join(self.lines)

    def line(self, depth, text):
        self.lines.append(' ' * depth + text)

    def type(self, type_):
        return key_of(type_, self.types)

    def field_type(self, type_, variant, field):
        """Returns the type of a field, or `None` if nothing depends on it."""
        if type_[0] == 'Struct':
            return type_[2][field]
        if type_[0] == 'Array':
            return type_[1]
        shape = self.shapes.get(type_[1], {})
        if variant is not None:
            return key_of(shape['Variants'][variant][field - 1], type_[2] or (0,)) if field else ('Int', 8)
        return key_of(shape['Fields'][field], type_[2] or (0,)) if 'Fields' in shape else None

    def place_type(self, place):
        type_, variant = self.locals[place['local']], None
        for step in place['steps']:
            (form, of), = step.items()
            if form == 'Variant':
                variant = of
            elif form == 'Deref':
                type_, variant = self.type(of), None
            else:
                type_, variant = type_ and self.field_type(type_, variant, of), None
        return type_

    def operand_type(self, operand):
        if not isinstance(operand, dict):
            return 'Bool'
        (form, of), = operand.items()
        return self.place_type(of) if form == 'Copy' else ('Int', of['width'] if form == 'Int' else 64)

    def local(self, number_):
        return f'v{number_}[0]' if number_ in self.boxed else f'v{number_}'

    def parts(self, place):
        """Returns the Python for the last pointer of a place, the type behind it, and the fields after it. Without a pointer, the
        first two are `None`."""
        text, type_, path = self.local(place['local']), None, []
        has_pointer = False
        for step in place['steps']:
            (form, of), = step.items()
            if form == 'Field':
                path.append(of)
            elif form == 'Deref':
                text = text + '.read()' * has_pointer + ''.join(f'[{it}]' for it in path)
                type_, path, has_pointer = self.type(of), [], True
        return text if has_pointer else None, type_, path

    def read(self, place):
        pointer, type_, path = self.parts(place)
        fields = ''.join(f'[{it}]' for it in path)
        if pointer is None:
            return self.local(place['local']) + fields
        if type_[0] in ARRAYS and not path:
            return f'{pointer}.read_array({number(type_[2]) * size_of(type_[1])})'
        return f'{pointer}.read(){fields}'

    def write(self, depth, place, value):
        """Writes the statement that gives a place its value."""
        pointer, type_, path = self.parts(place)
        local = self.local(place['local'])
        if pointer is None:
            self.line(depth, f'{local} = ' + (f'with_field({local}, {tuple(path)}, {value})' if path else value))
        elif type_[0] in ARRAYS and not path:
            self.line(depth, f'{pointer}.write_array({value})')
        else:
            self.line(depth, pointer + f".field({', '.join(map(str, path))})" * bool(path) + f'.write({value})')

    def address(self, place):
        pointer, _, path = self.parts(place)
        type_ = self.place_type(place)
        inside = [0] if type_ and type_[0] == 'Array' else []
        if pointer is None:
            return f"Pointer(v{place['local']}, 0, {tuple(path + inside)})"
        return pointer + (f".field({', '.join(map(str, path + inside))})" if path else '')

    def operand(self, operand):
        if isinstance(operand, str):
            return '()' if operand == 'Unit' else operand
        (form, of), = operand.items()
        if form == 'Copy':
            return self.read(of)
        if form in ('Aggregate', 'Parts'):
            return '(' + ''.join(self.operand(it) + ', ' for it in of) + ')'
        if form == 'Int':
            return str(of['value'] % (1 << of['width']))
        if form == 'Ints':
            return repr(tuple(of['values']))
        if form == 'NumOf':
            return str(number(self.type(of[1])))
        if form == 'SizeOf':
            return str(size_of(self.type(of)))
        return '1' if form == 'AlignOf' else f'unknown({form!r})'

    def elements(self, python, type_):
        """Returns an array's value of this type, from the Python for its elements."""
        if not type_ or type_[0] != 'Array':
            return python
        if type_[1][0] == 'Array':
            return f'sum({python}, ())'
        size = size_of(type_[1])
        return python if size == 1 else f'padded({python}, {size})'

    def value(self, rvalue, type_):
        """Returns the Python for a right-hand side of this type."""
        (form, of), = rvalue.items()
        if form == 'AddrOf':
            return self.address(of)
        if form in ('Aggregate', 'Parts', 'Ints'):
            return self.elements(self.operand(rvalue), type_)
        if form == 'Opd':
            return self.operand(of)
        if form == 'Repeat':
            return self.elements(f'({self.operand(of[0])},) * {number(self.type(of[1]))}', type_)
        if form in ('Op1', 'Op2'):
            return operation(of[0], width_of(self.operand_type(of[1])), *map(self.operand, of[1:]))
        if form == 'Vec2' and isinstance(of[0], dict) and next(iter(of[0])) in ('Map', 'Mask'):
            lanes = self.operand_type(of[1])[1]
            if lanes != 'Bool':
                each = operation(next(iter(of[0].values())), width_of(lanes), 'a', 'b')
                return f'tuple([{each} for a, b in zip({self.operand(of[1])}, {self.operand(of[2])})])'
        if form == 'Vec1' and 'Bitmask' in of[0]:
            return f'sum([1 << at for at, it in enumerate({self.operand(of[1])}) if it])'
        return f'unknown({form!r})'

    def statement(self, depth):
        """Writes the next statement of the body, which is in prefix form."""
        item = next(self.items)
        while item == 'Seq':
            self.statement(depth)
            item = next(self.items)
        (form, of), = [(item, None)] if isinstance(item, str) else item.items()
        if form in ('Block', 'Loop'):
            self.loop(depth, form)
        elif form == 'If':
            self.line(depth, f'if {self.operand(of)}:')
            self.branch(depth + 1)
            self.line(depth, 'else:')
            self.branch(depth + 1)
        elif form == 'Switch':
            self.switch(depth, *of)
        elif form == 'Assign':
            self.write(depth, of[0], self.value(of[1], self.place_type(of[0])))
        elif form == 'Call':
            self.write(depth, of[2], f"{self.callee(of[0])}({', '.join(map(self.operand, of[1]))})")
        elif form == 'LendStatic':
            self.lend(depth, *of)
        else:
            self.line(depth, self.simple(form, of))

    def simple(self, form, of):
        """Returns a statement of one line."""
        if form == 'Return':
            return f'return {self.local(0)}'
        if form == 'Exit':
            return f'x = {of}; break' if of else 'break'
        if form == 'Foreign':
            return f"return {of['symbol']}({', '.join(self.local(it) for it in range(1, 1 + self.function['params']))})"
        return 'pass' if form == 'Skip' else f'unknown({form!r})'

    def loop(self, depth, form):
        """Writes a block or a loop. `x` is the number of blocks that are still to be left."""
        self.line(depth, 'while True:')
        self.loops += 1
        self.statement(depth + 1)
        if form == 'Block':
            self.line(depth + 1, 'break')
        self.loops -= 1
        if self.loops:
            self.line(depth, 'if x: x -= 1; break')

    def branch(self, depth):
        self.line(depth, f'{self.taken}[{self.branches}] = 1')
        self.branches += 1
        self.statement(depth)

    def switch(self, depth, operand, groups, has_default):
        self.line(depth, f'y = {self.operand(operand)}')
        word = 'if'
        for group in groups:
            self.line(depth, f'{word} y in {tuple(group)}:')
            self.branch(depth + 1)
            word = 'elif'
        self.line(depth, 'else:' if groups else 'if True:')
        if has_default:
            self.branch(depth + 1)
        else:
            self.line(depth + 1, "unknown('a value of no variant')")

    def lend(self, depth, place, type_, value):
        """Writes a pointer to a constant."""
        type_, space = self.type(type_), self.library.space
        constant = eval(self.value(value if 'Repeat' in value or 'Ints' in value or 'Aggregate' in value else {'Opd': value}, type_), space)
        name = f'k{len(space)}'
        space[name] = Pointer(list(constant) if type_[0] == 'Array' else [constant], 0)
        self.write(depth, place, name)

    def callee(self, callee):
        """Returns the name of the Python function that is called."""
        (form, of), = callee.items()
        if form not in ('Fn', 'Method'):
            return f'unknown({form!r})'
        types = tuple(map(self.type, of[-1]['types']))
        dicts = tuple(map(self.dict, of[-1]['dicts']))
        callee = of[0] if form == 'Fn' else (self.dict(of[0]), of[1])
        return self.library.name_of(callee, types, dicts)

    def dict(self, dict_):
        """Returns an implementation of a trait: its name, its type arguments, and the implementations that it requires."""
        (form, of), = dict_.items()
        return self.dicts[of] if form == 'Given' else (of[0], tuple(map(self.type, of[1])), tuple(map(self.dict, of[2])))


class Library:
    """The functions of built libraries, and which of their branches were executed."""

    def __init__(self, folders):
        """`folders` has the folders of libraries, each with `NAME` in place of the crate's name."""
        self.folders, self.crates = folders, set()
        self.functions, self.methods, self.names, self.branches = {}, {}, {}, {}
        self.space = {it.__name__: it for it in (
            Pointer, unknown, with_field, padded, signed, fit, fit_signed, inverted)}
        self.space.update(rattle_alloc=allocate, rattle_realloc=reallocate, rattle_free=release, rattle_dealloc=release)

    def load(self, crate):
        """Reads the functions of a crate, once."""
        if crate in self.crates:
            return
        self.crates.add(crate)
        paths = [Path(str(it).replace('NAME', crate), f'{crate}.rlib/toolchain/mir.json') for it in self.folders]
        for name, function in json.loads(next((it for it in paths if it.exists()), paths[0]).read_bytes()):
            self.functions[name] = function
            of = function['generics']['method_of']
            if of and 'Impl' in of:
                self.methods[tuple(of['Impl'])] = name

    def function(self, name):
        """Returns a function's code."""
        self.load(name.split('::')[0])
        return self.functions.get(name) or unknown(f'no function {name}')

    def name_of(self, callee, types, dicts):
        """Returns the name of the Python function for a function or a method of an implementation. It is written at its first call."""
        key = callee, types, dicts
        if key not in self.names:
            name = self.names[key] = f'f{len(self.names)}'

            def first(*values):
                self.define(name, callee, types, dicts)
                return self.space[name](*values)
            self.space[name] = first
        return self.names[key]

    def define(self, python_name, callee, types, dicts):
        if isinstance(callee, tuple):
            (implementation, own_types, own_dicts), method = callee
            self.load(implementation.split('::')[0])
            callee, types, dicts = self.methods[implementation, method], own_types + types, own_dicts + dicts
        function = self.function(callee)
        branches = self.branches.setdefault(callee, f'b{len(self.branches)}')
        self.space.setdefault(branches, bytearray(branch_count(function['body'])))
        exec(Writer(self, function, types, dicts).python(python_name, branches), self.space)

    def call(self, name, *values, types=(), dicts=()):
        return self.space[self.name_of(name, types, dicts)](*values)

    def coverage(self, crate):
        """Returns the numbers of the crate's called functions, of all, of its executed branches, and of all. What is only proved
        doesn't count: laws, declarations, and the functions that free memory."""
        names = [it for it in self.functions if it.startswith(f'{crate}::')]
        names = [it for it in names if '::laws::' not in it and '+decl' not in it and 'Destruct' not in it]
        called = [self.space[self.branches[it]] for it in names if it in self.branches]
        return len(called), len(names), sum(map(sum, called)), sum(branch_count(self.functions[it]['body']) for it in names)


# The system's memory. A block has a place for each byte.

def allocate(_, size, align):
    return True, Pointer([None] * size, 0)


def reallocate(_, old, old_size, size, align):
    return True, Pointer((old.cells[:old_size] + [None] * (size - old_size))[:size], 0)


def release(*_):
    return ()


def text(value):
    """Returns a text or bytes as the code is given it: a pointer and a length."""
    data = value.encode(errors='surrogateescape') if isinstance(value, str) else bytes(value)
    return Pointer(list(data), 0), len(data)


def bytes_of(slice_):
    """Returns the bytes of a slice or of a text."""
    pointer, length = slice_
    return bytes(pointer.read_array(length))


def string(slice_):
    return bytes_of(slice_).decode()
