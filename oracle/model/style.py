"""Rewrites literals in a style: a literal is divided into its parts, each part is rewritten separately, and the parts are joined
again.

A style is a sequence of letters, one for each rule. `x` and `X`: hexadecimal digits in lower and in upper case. `u`: no underscores
in numbers. `z`: no zeros at the start of integers of base ten, except if all digits are octal. `s` and `S`: no separator and an underscore before a suffix. `g` and
`G`: digits in the groups of GROUPS. `f`: a zero after a float's last dot. `e` and `E`: the case of the exponent's letter. `d` and
`D`: the case of the digits of escapes. `c`: the fewest digits in the braces of a Unicode escape. `a`: visible ASCII characters in
place of numeric escapes. `n`: letters in place of numeric escapes for LF, CR, TAB and NUL (NUL not before a digit). `p`: no plus.
`q`: no unneeded backslash before a quote. `h`: the fewest hashes. `r`: no raw strings that need not be raw. `i`: escapes for
invisible and bidirectional characters, by Unicode's table in perl. No rule changes a number whose suffix may be mistyped.
"""
import itertools
import re

from hidden import hiding
from model.literals import Unit, closer, literal, text_of

RULES = ['x', 'X', 'u', 'z', 's', 'S', 'g', 'G', 'f', 'e', 'E', 'd', 'D', 'c', 'a', 'n', 'p', 'q', 'h', 'r', 'i']
# The styles with all rules, with digits in lower and in upper case.
WHOLE = ('xuzsfgedcanpqhri', 'XuzSfGEDcanpqhri')
# For each letter, the number of digits in a group of each base, and the smallest number of digits that are grouped.
GROUPS = {'g': ({2: 4, 8: 0, 10: 3, 16: 4}, 5), 'G': ({2: 8, 8: 3, 10: 2, 16: 1}, 0)}
NAMES = {10: '\\n', 13: '\\r', 9: '\\t'}


def cased(style, low, high, text):
    return text.lower() if low in style else text.upper() if high in style else text


def unit(style, kind, it, after):
    """Returns the rewritten text of a character or an escape. `after` is the next one, if there is one."""
    if it.what == 'quote' and 'q' in style and chr(it.code) != closer(kind):
        return Unit('itself', chr(it.code), it.code)
    if it.what == 'itself' and 'i' in style and is_hidden(it.text):
        it = Unit('hex', '\\x%02x' % it.code if it.code < 128 else '\\u{%x}' % it.code, it.code)
    if it.what not in ('hex', 'unicode'):
        return it
    if 'a' in style and 0x21 <= it.code <= 0x7e:
        return Unit('quote' if chr(it.code) == closer(kind) else 'letter' if it.code == 92 else 'itself',
                    ('\\' if chr(it.code) in (closer(kind), '\\') else '') + chr(it.code), it.code)
    if 'n' in style and it.code in NAMES:
        return Unit('letter', NAMES[it.code], it.code)
    # In other languages, digits after `\0` belong to it.
    if 'n' in style and it.code == 0 and not (after and after.code is not None and chr(after.code) in '0123456789'):
        return Unit('letter', '\\0', it.code)
    if it.what == 'unicode' and 'c' in style:
        it = it._replace(text='\\u{%s}' % (it.text[3:-1].replace('_', '').lstrip('0') or '0'))
    return it._replace(text=it.text[:2] + cased(style, 'd', 'D', it.text[2:]))


def is_hidden(c):
    # A form feed lays out a source. In a literal it is an invisible character.
    return c in hiding() and c != '\r' or c == '\f'


def loses_raw(style, kind, front, inside):
    """Whether a raw literal becomes a literal with escapes. After a hash or a dot, a literal without a prefix would then be lexed
    differently."""
    bare = 'r' in style and not set(inside) & set('"\\')
    shown = 'i' in style and any(map(is_hidden, inside))
    return (bare or shown) and not (kind == 'Str' and front[-1:] in ('#', '.'))


def unit_of(kind, c):
    if c in '"\\':
        return Unit('quote' if c == '"' else 'letter', '\\' + c, ord(c))
    return Unit('itself', c, ord(c))


def fewest_hashes(inside):
    """Returns the smallest number of hashes with which no quote closes the literal before its end."""
    return max([0] + [len(match[1]) + 1 for match in re.finditer('"(#*)', inside)])


def in_groups(style, base, suffix, row, from_first=False):
    """Returns a sequence of digits in groups, with the underscores at its end."""
    sizes, least = next((GROUPS[letter] for letter in GROUPS if letter in style), ({}, 0))
    size = sizes.get(base, 0)
    # With different underscores, a text like `0_b1` could begin like a number of another base.
    if size == 0 or suffix[:1] in ('b', 'o', 'x'):
        return row
    digits, end = row.replace('_', ''), row[len(row.rstrip('_')):]
    if len(digits) < least:
        return digits + end
    first = 0 if from_first else len(digits) % size
    parts = [digits[:first]] + [digits[at:at + size] for at in range(first, len(digits), size)]
    return '_'.join(part for part in parts if part) + end


def numeral_in_groups(style, suffix, numeral):
    """Returns the integer part and the fraction of a float in groups."""
    whole, dot, fraction, power = re.fullmatch(r'([0-9_]+)(\.?)([0-9_]*)(.*)', numeral).groups()
    return in_groups(style, 10, suffix, whole) + dot + in_groups(style, 10, suffix, fraction, True) + power


def is_mistyped(it, text):
    """Whether a number may have a mistyped suffix, as `2_32` for `2_i32` and `1e5_32` for `1e5_f32`."""
    number = it.form == 'int' or it.form == 'float' and 'e' in text.lower()
    return number and not it.suffix and text.endswith(('_8', '_16', '_32', '_64'))


def rewrite(style, text, front=''):
    """Returns the literal in the style, where `front` is the text before it, or None if the text isn't a literal."""
    it = literal(text)
    if it is None:
        return None
    if is_mistyped(it, text):
        return text
    if it.form == 'raw' and loses_raw(style, it.kind, front, it.parts['inside']):
        it = it._replace(form='escapes', parts={'units': [unit_of(it.kind, c) for c in it.parts['inside']]})
    parts = dict(it.parts)
    # Without its underscores, a text like `0_b1` would begin like a number of another base.
    if 'u' in style and it.suffix[:1] not in ('b', 'o', 'x'):
        parts.update((part, parts[part].replace('_', '')) for part in ('row', 'numeral') if part in parts)
    last = next((part for part in ('row', 'numeral') if part in parts), None)
    if last and ('S' in style or 's' in style and it.suffix[:1] not in ('b', 'o', 'x')):
        parts[last] = parts[last].rstrip('_')
    if 'z' in style and it.form == 'int' and parts['base'] == 10 and it.suffix[:1] not in ('b', 'o', 'x'):
        # `0123` may be meant as an octal number.
        parts['row'] = parts['row'].lstrip('0_') if set(parts['row']) & set('89') else parts['row']
    if it.form == 'int' and parts['base'] == 16:
        parts['row'] = cased(style, 'x', 'X', parts['row'])
    if it.form == 'float':
        numeral = parts['numeral'].replace('+', '') if 'p' in style else parts['numeral']
        parts['numeral'] = cased(style, 'e', 'E', numeral)
    if it.form == 'int':
        parts['row'] = in_groups(style, parts['base'], it.suffix, parts['row'])
    if it.form == 'float':
        parts['numeral'] = numeral_in_groups(style, it.suffix, parts['numeral'])
        if 'f' in style and parts['numeral'].endswith('.'):
            parts['numeral'] += '0'
    if last and 'S' in style and it.suffix:
        parts[last] += '_'
    if it.form == 'escapes':
        pairs = itertools.zip_longest(parts['units'], parts['units'][1:])
        parts['units'] = [unit(style, it.kind, each, after) for each, after in pairs]
    if it.form == 'raw' and 'h' in style:
        parts['hashes'] = fewest_hashes(parts['inside'])
    return text_of(it._replace(parts=parts))
