"""Calls of the libraries that allocate, executed on the proved code. `ROWS` has a function for each heading of the stored rows in
rust/programs/rows/tests/calls, and `COMMANDS` one for each command of `rl_rows`. Their results have the form of these rows.
"""
import callers
import core_calls
from callers import ALLOC, BYTES, GLOBAL, INPUT, LIT_BOOL, STRING, at, implementation, run
from proved import Pointer, bytes_of, string, text

KINDS = 'Str ByteStr CStr Byte Char Int Float Bool'.split()
MODULES = {'Str': 'str', 'ByteStr': 'byte_str', 'CStr': 'c_str', 'Byte': 'byte', 'Char': 'char', 'Int': 'int', 'Float': 'float'}
# The variants of `Lit` that are numbers.
NUMBERS = {5: 'Int', 6: 'Float'}
# A span that callers pass, and that no call creates by itself.
HERE = (7, 3, 9)
LIT = 'Named', 'rust_literals::lit::Lit', (GLOBAL,)
PROGRAM_ERROR = 'Named', 'rl_program::program_error::ProgramError', (GLOBAL,)


def literal_type(kind):
    """Returns the type of the literals of a kind."""
    if kind == 'Bool':
        return LIT_BOOL
    crate, holder = ('rust_literals', 'number::Number') if kind in NUMBERS.values() else ('rl_quoted', 'quoted::Quoted')
    return 'Named', f'{crate}::{holder}', (('Named', f'{crate}::lit_{MODULES[kind]}::{kind}Kind', ()), GLOBAL)


def written(name, value, types=(GLOBAL,)):
    """Returns what an implementation of `Display` or `Debug` writes."""
    out = at(run('core::fmt::formatter::Formatter::new', run('std_alloc::string::String::new', ALLOC), types=(STRING,)))
    run(name, at(value), out, types=types + (STRING,))
    return owned(run('core::fmt::formatter::Formatter::into_inner', out.read(), types=(STRING,)))


def items(vec, size=8):
    """Returns the elements of a `Vec`. Those of a list of bytes have the size 1."""
    pointer, length = vec[:2]
    return list(pointer.read_array(length * size)[::size])


def owned(value):
    """Returns the text of a `String`."""
    return bytes(items(value[0], 1)).decode()


def vec_of(data):
    """Returns a list of bytes."""
    pointer, length = text(data)
    return pointer, length, length, ALLOC


def between(span):
    return f'{span[1]}..{span[2]}'


def place(span):
    return f'{span[0]}:{between(span)}'


def error_of(error):
    kind, message = written('rl_tokens::error::ErrorKindDebug::fmt', error[1]), written('rl_tokens::error::ErrorDisplay::fmt', error)
    return f'{place(error[0])} {kind}: {message}\n'


def result(answer, shown):
    """Shows the value of a `Result`, or its error."""
    return error_of(answer[1]) if answer[0] else shown(answer[1])


def numbers(values):
    return '[' + ', '.join(map(str, values)) + ']'


def token(row, span=HERE):
    return run('rl_tokens::literal::Literal::from_text', ALLOC, text(row), span)[1]


def literal_of(row, span=HERE):
    return run('rust_literals::lit::Lit::new', ALLOC, token(row, span))[1]


def lit(method, literal):
    return run(f'rust_literals::lit::Lit::{method}', at(literal))


def line(literal):
    return owned(run('rl_program::lit_line::output_line', ALLOC, at(literal))[1])


def whole(literal):
    debug = written('rust_literals::lit::copies::LitDebug::fmt', literal)
    return f"{debug} {place(lit('span', literal))} {line(literal)}"


def number_part(method, number, kind):
    return string(run(f'rust_literals::number::Number::{method}', at(number), types=literal_type(kind)[2]))


def parts(found):
    if found[0] == 0:
        return 'None'
    kind, body, suffix = found[1]
    return f'{KINDS[kind[0]]} {string(body)}.{string(suffix)}'


def form(name):
    return lambda row: parts(run(f'rl_lenient::{name}', text(row)))


def int_shape(row):
    found = run('rl_lenient::number_forms::int_shape', text(row))
    return parts(found[1]) if found[0] and found[1][0] else 'past' if found[0] else 'None'


def flaw_of(name, *values):
    def shown(row):
        found = run(f'rl_strict::reasons::{name}', text(row), *values)
        if found[0] == 0:
            return 'None\n'
        kind, start, lo, hi = found[1]
        return f"{written('rl_strict::flaws::FlawKindDebug::fmt', kind, ())} {start} {lo}..{hi}\n"
    return shown


def tree_form(tree):
    number, of = tree
    if number == 0:
        return ('Parenthesis', 'Brace', 'Bracket')[of[0][0]]
    return f'Punct {chr(of[0])}' if number == 2 else f"{'Ident' if number == 1 else 'Literal'} {owned(of[0])}"


def nested(vec):
    out = ''
    for tree in items(vec):
        out += f"{tree_form(tree)} {between(run('rl_tokens::token::TokenTree::span', at(tree)))} "
        out += '' if tree[0] else f'< {nested(tree[1][1][0])}> '
    return out


def lex_kind(kind):
    return written('rl_lexer::lex_error::LexKindDebug::fmt', kind, ())


def lex(row):
    answer = run('rl_tokens::lexer::lex', ALLOC, text(row), 7)
    return f'{lex_kind(answer[1][0])} {answer[1][1]}' if answer[0] else nested(answer[1][0])


def token_line(answer):
    return result(answer, lambda it: f'{owned(it[0])} {place(it[1])}\n')


def made(name, *values):
    """Shows the token that a constructor of tokens returns."""
    return token_line(run(f'rl_tokens::literal::Literal::{name}', ALLOC, *values))


def quoted_new(kind, value, types=(GLOBAL,)):
    return run(f'rl_quoted::lit_{MODULES[kind]}::Lit{kind}+A::new', ALLOC, value, HERE, types=types)


def quoted_value(kind, literal):
    return run(f'rl_quoted::lit_{MODULES[kind]}::Lit{kind}+A::value', at(literal), ALLOC)


def literal_line(kind, answer):
    return result(answer, lambda it: whole((KINDS.index(kind), it)))


def string_row(row):
    return made('string', text(row)) + literal_line('Str', quoted_new('Str', text(row)))


def byte_string(row):
    answer = quoted_new('ByteStr', text(row))
    value = result(answer, lambda it: result(quoted_value('ByteStr', it), lambda it: numbers(items(it, 1)) + ' '))
    return made('byte_string', text(row)) + value + literal_line('ByteStr', answer)


def c_string(row):
    answer = run('rl_tokens::c_string::CString::new', vec_of(row))
    if answer[0]:
        where = run('rl_tokens::c_string::NulError::nul_position', at(answer[1]))
        return f"zero at {where} of {numbers(items(run('rl_tokens::c_string::NulError::into_vec', answer[1]), 1))}"
    held = at(answer[1])
    literal = quoted_new('CStr', held, types=(GLOBAL, GLOBAL))
    same = result(literal, lambda it: result(quoted_value('CStr', it), lambda it: core_calls.shown(
        run('rl_tokens::c_string::CStringPartialEq::eq', at(it), held)) + ' '))
    data = numbers(bytes_of(run('rl_tokens::c_string::CString::as_bytes', held)))
    return f"{data} {made('c_string', held)}{same}{literal_line('CStr', literal)}"


def characters(row):
    return ''.join(made('character', ord(c)) + literal_line('Char', quoted_new('Char', ord(c))) for c in row)


def buffer(method, input_, *values, types=None):
    return run(f'rl_tokens::buffer::ParseBuffer::{method}', input_, *values, types=types)


def buffer_of(row):
    """Returns a buffer over the trees of a text, or `None`."""
    answer, size = run('rl_tokens::lexer::lex', ALLOC, text(row), 0), len(row.encode())
    return None if answer[0] else at(buffer('new', run('rl_tokens::token::TokenStream::trees', at(answer[1])), (0, size, size)))


def parser(type_):
    """Returns the function of the rows of a type's parser: its name in messages, its peek, its result, and the position after it."""
    def shown(row):
        input_ = buffer_of(row)
        if input_ is None:
            return 'no trees'
        name, types, dicts = implementation('rl_tokens::parse::Token', type_)
        display = string(callers.library.call(f'{name}::display', types=types, dicts=dicts))
        peeked = core_calls.shown(buffer('peek', input_, types=(GLOBAL, type_)))
        parsed = result(buffer('parse', input_, ALLOC, types=(GLOBAL, type_)), lambda _: 'ok\n')
        return f"{display}, {peeked}: {parsed}next {place(buffer('span', input_))}"
    return shown


def mark(row):
    input_ = buffer_of(row)
    group = buffer('group', input_)
    if group[0]:
        input_ = at(run('rl_tokens::token::Group::inside', group[1]))
    peeked = core_calls.shown(buffer('peek_punct', input_, ord('=')))
    taken_ = result(buffer('take_punct', input_, ord('=')), lambda _: 'ok\n')
    return f"equals sign, {peeked}: {taken_}next {place(buffer('span', input_))}"


def value_ref(literal):
    """Returns the value that a string literal borrows from its text, or `None`."""
    kind = KINDS[literal[0]] if literal[0] < 3 else None
    found = run(f'rl_quoted::lit_{MODULES[kind]}::Lit{kind}+A::value_ref', at(literal[1])) if kind else (0,)
    return bytes_of(found[1]) if found[0] else None


def called(row):
    """Runs `rl_tool`. A row has the arguments, one in each line, then U+001F, then standard input."""
    words, given = row.split('\x1f', 1)
    cells = [it for word_ in words.split('\n') for it in ((vec_of(word_),), *[None] * 7)]
    out = at(run('std_alloc::vec::Vec::new', ALLOC, types=(('Int', 8), GLOBAL)))
    arguments = Pointer(cells, 0), len(cells) // 8
    ending = run('rl_program::command_line::run_with_arguments', ALLOC, arguments, at(text(given)), out, types=(GLOBAL, INPUT, BYTES))
    status = run('rl_program::exit::Ending::status', at(ending), types=(PROGRAM_ERROR,))
    shown = bytes(items(out.read(), 1)).decode()
    return f"{shown}{status} {written('rl_program::exit::EndingDisplay::fmt', ending, (PROGRAM_ERROR,))}\n"


def output_lines(name):
    def shown(row):
        answer = run(f'rl_program::{name}', ALLOC, text(row))
        error = answer[0] and written('rl_program::program_error::ProgramErrorDisplay::fmt', answer[1])
        return (error + '\n' if error else owned(answer[1])) + '.\n'
    return shown


def value_line(row):
    literal = literal_of(row)
    value, kind = value_ref(literal), NUMBERS.get(literal[0])
    if kind and run('rl_lenient::contents::is_plain', (literal[0],), text(number_part('text', literal[1], kind))):
        value = number_part('base10_digits', literal[1], kind).encode()
    return 'None\n' if value is None else made('byte_string', text(value)).rsplit(' ', 1)[0] + '\n'


COMMANDS = {
    'text': lambda row: line(literal_of(row)), 'value': value_line, 'skip': lambda row: f"{run('rl_lexer::whitespace::skip', text(row))[1]}\n",
    'strict': lambda row: core_calls.shown(run('rl_grammar::strict::is_token', text(row))) + '\n',
    'read': output_lines('list::literal_lines'), 'attr': output_lines('attribute_lines::attribute_lines'),
}
ROWS = {
    'grammar': {
        'shape': form('found::shape'), 'int_shape': int_shape, 'float_shape': form('number_forms::float_shape'),
        'shape_negative': form('number_forms::shape_negative'), 'skipped': lambda row: string(run('rl_lexer::whitespace::skip', text(row))),
    },
    'flaws': {'explain': flaw_of('explain'), 'explain-value': flaw_of('explain_missing_value', (0,), True)},
    'tokens': {
        'lex': lex, 'string': string_row, 'byte_string': byte_string, 'c_string': c_string, 'characters': characters,
        'mark': mark,
    },
    'parsers': {'Lit': parser(LIT), **{f'Lit{it}': parser(literal_type(it)) for it in KINDS}},
    'calls': {'call': called},
}
