"""The core's calls on a text, executed on the proved code. The commands and their lines are those of
rust/programs/rows/src/core_calls.rs.
"""
from callers import at, run
from proved import Pointer, string, text

NONE, ENDS = (0,), ((0,), (1,))
STR, BYTE_STR, C_STR = (0,), (1,), (2,)


def some(value):
    return 1, value


def shown(value):
    """Shows a value as a list in parentheses, as rust/programs/rows/src/shown.rs does. References are shown as their values."""
    if isinstance(value, bool):
        return str(value).lower()
    if isinstance(value, Pointer):
        return shown(value.read())
    if not isinstance(value, tuple):
        return str(value)
    if len(value) == 2 and isinstance(value[0], Pointer):
        return f'"{string(value)}"'
    return f"({' '.join(map(shown, value))})"


def lines(*values):
    return ''.join(shown(it) + '\n' for it in values)


def calls(name, *values, last=(0,)):
    """Shows the results of repeated calls, up to the first one that is a variant in `last`."""
    out = ''
    while True:
        step = run(name, *values)
        out += lines(step)
        if step[0] in last:
            return out


def after(type_, cursor, *names):
    """Shows the results of methods of a cursor."""
    return lines(*(run(f'{type_}::{it}', cursor) for it in names))


TOKENS, SOURCES, RECOVERY = 'rl_lexer::cursor::Tokens', 'rl_lexer::sources::Sources', 'rl_cursors::recovery::Recovery'
LIST, SEGMENTS, RESTYLABLES = 'rl_cursors::lists::ListLiterals', 'rl_cursors::segments::Segments', 'rl_style::restylable::Restylables'


def new(type_, row):
    return at(run(f'{type_}::new', text(row)))


def tokens(row):
    cursor = new(TOKENS, row)
    return calls(f'{TOKENS}::next', cursor) + after(TOKENS, cursor, 'error', 'rest')


def sources(row):
    given = text(row)
    cursor, out, step = at(run(f'{SOURCES}::new', given)), '', some(())
    while step != NONE:
        rest = run(f'{SOURCES}::rest', cursor)
        resumed = [run(f'{it}::next_literal', at(run(f'{it}::resume', given, rest))) for it in (SOURCES, RECOVERY)]
        step = run(f'{SOURCES}::next', cursor)
        out += lines((tuple(resumed), step))
    return out + after(SOURCES, cursor, 'error', 'rest', 'following_lines')


def recovery(row):
    given = text(row)
    cursor = at(run(f'{RECOVERY}::resume', given, run(f'{SOURCES}::rest', at(run(f'{SOURCES}::new', given)))))
    return calls('rl_cursors::recovery::next_recovered_literal', cursor)


def each_of(*names):
    """Returns the command that shows the results of calls on the text."""
    return lambda row: lines(*(run(it, text(row)) for it in names))


def parsed(row):
    """Returns the text, and the parse result of the literal, if it is one."""
    given = text(row)
    return given, run('rl_lenient::found::parse_literal', given)


def segments(row):
    given, found = parsed(row)
    parts = run(f'{SEGMENTS}::of', given)
    if NONE in (parts, found):
        return ''
    cursor, size = at(parts[1]), 0
    out = calls(f'{SEGMENTS}::next', cursor)
    cursor = at(run(f'{SEGMENTS}::of', given)[1])
    while (step := run(f'{SEGMENTS}::next', cursor)) != NONE:
        size += run('rl_cursors::segments::SegmentValue::len', step[1][2])
    out += lines(*(run('rl_cursors::segments::text_offset', given, byte) for byte in range(size + 2)))
    _, body, kind, *_ = found[1]
    half = size // 2
    ranges = (0, half), (half, size), (half, half)
    return out + lines(*(run('rl_cursors::ranges::text_range', kind, given, at(body), *it) for it in ranges))


def reading(row):
    given = text(row)
    flaw = run('rl_strict::reasons::explain', given)
    out = lines(flaw, some(run('rl_strict::flaws::Flaw::in_span', flaw[1], (7, 3, 9))) if flaw[0] else NONE)
    for ends in ENDS:
        for is_signed in (False, True):
            out += lines(*(run(f'rl_strict::{it}', given, ends, is_signed) for it in (
                'strict_reading::read', 'reasons::explain_missing_value')))
    return out


def flaws(row):
    given, out = text(row), ''
    for ends in ENDS:
        read = run('rl_strict::strict_reading::read', given, ends, False)
        if read[0]:
            first, rest = run('rl_flaws::flaws::Flaws::after', given, ends, read[1])
            out += lines(first) + calls('rl_flaws::flaws::Flaws::next', at(rest))
    return out


def pieces(row):
    found = [run('rl_flaws::pieces::Pieces::of', text(row), ends) for ends in ENDS]
    return ''.join(calls('rl_flaws::pieces::Pieces::next', at(it[1])) for it in found if it[0])


def types(row):
    given, found = parsed(row)
    out = lines(run('rl_flaws::kind_guess::guess_kind', given))
    if found[0]:
        literal = at(found[1])
        named = run('rl_flaws::number_types::type_named', run('rl_lenient::found::Found::suffix_in', literal, given))
        errors = [run('rl_flaws::type_errors::type_error', given, literal, it) for it in (False, True)]
        greatest = [run('rl_flaws::number_types::max_integer', named[1], it) if named[0] else NONE for it in (False, True)]
        out += lines(*errors, named, *greatest)
    return out


def before(row):
    cursor, data, out = new(SOURCES, row), row.encode(), ''
    while (step := run(f'{SOURCES}::next_literal', cursor)) != NONE:
        front = text(data[:step[1][2]])
        out += lines(run('rl_flaws::before::first_reserving_edition', front, step[1][1]), run('rl_flaws::before::may_be_negated', front))
    return out


def written(row):
    given, size = text(row), len(row.encode())
    room = text(bytes(16 * size + 600))

    def line(name, *values):
        return lines((room[0], run(name, *values, room)))
    out = line('rl_syntax::written_into::write_str_into', given) + line('rl_syntax::written_into::write_bytes_into', BYTE_STR, given)
    out += line('rl_writing::ascii::write_str_ascii_into', given)
    for char in row[:2]:
        out += line('rl_syntax::written_into::write_char_into', ord(char)) + line('rl_writing::ascii::write_char_ascii_into', ord(char))
    for kind in (STR, BYTE_STR, C_STR):
        hashes = run('rl_writing::raw_strings::min_raw_hashes', kind, given)
        if hashes[0]:
            out += line('rl_writing::raw_strings::write_raw_into', kind, hashes[1], given)
    for base, group in enumerate((8, 0, 3, 4)):
        style = (base,), group == 4, group, 5
        out += line('rl_writing::integers::write_integer_into', size * 0x0123456789ABCDEF01234567, style, some((4,)))
    return out


LOWER, UPPER, NOTHING, UNDERSCORE = some((0,)), some((1,)), some((0,)), some((1,))


def style(letters, escapes, separator, is_full=True):
    groups = some((4, 3, 3, 4, 5)) if is_full else NONE
    return letters, is_full, True, separator, groups, True, letters, True, escapes, True, is_full, True, True, True, is_full, True


FULL, SPARSE = style(LOWER, UPPER, UNDERSCORE), style(UPPER, LOWER, NOTHING, is_full=False)


def restyled(row):
    given, out = text(row), ''
    room = text(bytes(4 * len(row.encode()) + 1))
    for front, style in (('', FULL), ('#', FULL), ('', SPARSE)):
        out += lines(run('rl_style::rules::is_changed_by_style', text(front), given, style, room))
        answer = run('rl_style::rewrite::rewrite_into', text(front), given, style, room)
        out += lines(answer if answer[0] else (0, (room[0], answer[1])))
    return out


def restylable(row):
    cursor = new(RESTYLABLES, row)
    is_safe = run('rl_style::whole::is_safe_to_restyle', text(row))
    return calls(f'{RESTYLABLES}::next', cursor) + after(RESTYLABLES, cursor, 'has_stray', 'error') + lines(is_safe)


FOUND = [f'rl_lenient::{it}' for it in (
    'found::parse_literal', 'found::parse_int_literal', 'found::parse_float_literal', 'found::parse_with_added_minus', 'found::shape',
    'number_forms::int_shape', 'number_forms::float_shape', 'number_forms::shape_negative', 'numbers::integer_parts',
    'numbers::float_parts', 'found::bool_of')]
LEADING = [f'rl_cursors::{it}' for it in ('leading::leading_literal', 'leading::leading_signed_literal', 'groups::first_error')]
COMMANDS = {
    'tokens': tokens, 'sources': sources, 'recovery': recovery, 'leading': each_of(*LEADING), 'found': each_of(*FOUND),
    'segments': segments, 'reading': reading, 'flaws': flaws, 'pieces': pieces, 'types': types, 'before': before, 'written': written,
    'restyled': restyled, 'restylable': restylable,
    'source-literals': lambda row: calls('rl_cursors::source_literals::next_source_literal', new(SOURCES, row), last=(0, 2)),
    'literals': lambda row: calls('rl_cursors::next_literals::next_literal', new(TOKENS, row)),
    'list': lambda row: calls(f'{LIST}::next', new(LIST, row), last=(0, 2)),
    'settings': lambda row: calls('rl_cursors::settings::next_setting', new(TOKENS, row), len(row.encode()), last=(0, 2)),
    'entries': lambda row: calls('rl_cursors::entries::next_config_entry', new(TOKENS, row), text(row), last=(0, 2)),
}
