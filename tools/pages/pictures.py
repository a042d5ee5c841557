"""Railroad diagrams of the rules of a grammar, drawn from the source."""
import hashlib
import re

from .rules import FILES, code_of

# Rules that a diagram shows by their parts, since they have parameters or stand for what is between quotes.
PARTS = ('str_inside byte_str_inside c_str_inside raw raw_to_last x_escape not_nul ascii_only digits some_digits number '
         'tested_number').split()
# Rules of which there is no diagram: conditions on the text that follows, and the choice by kind.
HIDDEN = 'digit no_prefix exponent_suffix literal as_contents syn_literal syn_suffix IsLiteral IsSynLiteral'.split()
CLASSES = {'is_xid_start': 'XID_Start', 'is_xid_continue': 'XID_Continue'}
NAMES = {'\n': 'LF', '\r': 'CR', '\t': 'TAB', '\0': 'NUL', ' ': 'space'}
TOKEN = re.compile(r'\s*(codes? "(?:\\.|[^"\\])*"|λ \w+\.|[()⋅∣∷]|[^\s()]+)')


def rules_of(name):
    """Returns the rules of a file: the parameters and the right side of each, by its name."""
    code = re.sub(r'(?m)^--.*\n|^(pub record|  pub |    :).*\n', '', code_of(name) + '\n')
    found = re.findall(r'(?m)^(\w+)((?: \w+)*) =((?:.*\n)(?:    .*\n)*)', code)
    return {rule: (parameters.split(), right.strip()) for rule, parameters, right in found if 'IsByTheRules' not in rule}


def text_of(code):
    """Returns the characters of the texts in an expression."""
    said = ''.join(re.findall(r'codes? "((?:\\.|[^"\\])*)"', code))
    return re.sub(r'\\(.)', lambda it: {'n': '\n', 'r': '\r', 't': '\t'}.get(it[1], it[1]), said)


def shown(text):
    return ' '.join(NAMES.get(it, it) for it in text) if set(text) & set(NAMES) else text


class Drawing:
    """Draws the right side of a rule. The attributes are the tokens that are left, and the rules of all files."""

    def __init__(self, code, rules):
        self.tokens, self.rules = TOKEN.findall(code), rules

    def next(self, token):
        return bool(self.tokens) and self.tokens[0] == token and bool(self.tokens.pop(0))

    def argument(self):
        """Takes one argument, and returns its code."""
        taken, depth = [], 0
        while not taken or depth:
            taken.append(self.tokens.pop(0))
            depth += (taken[-1] == '(') - (taken[-1] == ')')
        return ' '.join(taken[1:-1] if taken[0] == '(' else taken)

    def inner(self, code):
        return Drawing(code, self.rules).choice()

    def choice(self):
        from railroad import Choice
        items = [self.sequence()]
        while self.next('∣'):
            items.append(self.sequence())
        return items[0] if len(items) == 1 else Choice(0, *items)

    def sequence(self):
        from railroad import Sequence, Skip
        items = [self.item()]
        while self.next('⋅'):
            items.append(self.item())
        items = [it for it in items if it] or [Skip()]
        return items[0] if len(items) == 1 else Sequence(*items)

    def item(self):
        """Draws one part of a sequence, or returns None for a condition on the text that follows."""
        from railroad import NonTerminal, Optional, Terminal, ZeroOrMore
        if self.tokens[0] == '(':
            return self.inner(self.argument())
        head = self.tokens.pop(0)
        if head.startswith('code'):
            self.next('is') and self.tokens.pop(0)
            return Terminal(shown(text_of(head)))
        if head == 'Unless':
            self.argument()
        if head in ('Unless', 'no_prefix', 'end'):
            return None
        if head in ('One', 'any_of', 'digit'):
            return self.character(head, self.argument())
        if head == 'Text':
            return self.text(self.argument())
        if head in ('As', 'If'):
            self.argument()
        if head in ('As', 'If', 'Some'):
            return self.inner(re.sub(r'^λ \w+\. ', '', self.argument()))
        if head in ('Many', 'maybe'):
            return (ZeroOrMore if head == 'Many' else Optional)(self.inner(self.argument()))
        parameters, right = self.rules[head]
        given = [self.argument() for _ in parameters]
        if head not in PARTS:
            return NonTerminal(head)
        for parameter, its in zip(parameters, given):
            right = re.sub(rf'\b{parameter}\b', lambda _, its=its: f'({its})', right)
        return self.inner(right)

    def character(self, head, code):
        from railroad import Choice, NonTerminal, Terminal
        if head == 'any_of':
            items = [Terminal(shown(it)) for it in text_of(code)]
            return items[0] if len(items) == 1 else Choice(0, *items)
        if head == 'digit':
            return NonTerminal(f'digit of base {code.strip("()")}')
        kind = 'ASCII character' if 'is_ascii' in code else CLASSES.get(code, 'character')
        without = ' '.join(NAMES.get(it, it) for it in text_of(code))
        none = ' NUL' * bool(re.search(r'\b0\b', code))
        return NonTerminal(f'{kind} but {without}'.rstrip() + none if without or none else kind)

    def text(self, code):
        from railroad import Sequence, Terminal, ZeroOrMore
        before, hashes, after = code.partition('replicate')
        if not hashes:
            return Terminal(shown(text_of(code)))
        first, last = text_of(before), text_of(after).replace('#', '')
        items = [Terminal(first)] * bool(first) + [ZeroOrMore(Terminal('#'))] + [Terminal(last)] * bool(last)
        return Sequence(*items)


def drawn(name):
    """Returns the diagrams of the rules of a file as SVG, one below another, each on a line."""
    from railroad import DEFAULT_STYLE, Diagram
    rules = {rule: its for file in FILES for rule, its in rules_of(file).items()}
    parts, top, width = [], 10, 0
    for rule, (_, right) in rules_of(name).items():
        if rule in PARTS + HIDDEN:
            continue
        written = []
        Diagram(Drawing(right, rules).choice()).writeSvg(written.append)
        svg = re.sub('<style>.*?</style>|\n', '', ''.join(written), flags=re.S)
        wide, high = (float(re.search(rf' {it}="([\d.]+)"', svg)[1]) for it in ('width', 'height'))
        parts.append(f'<text x="20" y="{top + 12:g}" style="font: bold 14px monospace; text-anchor: start">{rule}</text>'
                     + re.sub('<svg.*?>', f'<g transform="translate(0 {top + 10:g})">', svg, count=1).replace('</svg>', '</g>'))
        top, width = top + high + 16, max(width, wide)
    style = re.sub(r'\s+', ' ', DEFAULT_STYLE).strip()
    return (f'<svg xmlns="http://www.w3.org/2000/svg" class="railroad-diagram" width="{width:g}" height="{top:g}" '
            f'viewBox="0 0 {width:g} {top:g}">\n<style>{style}</style>\n' + '\n'.join(parts) + f'\n{mark(name)}</svg>\n')


def mark(name):
    """Returns the comment by which a diagram shows of which rules it is made."""
    return digest(re.sub(r'(?m)^ *--.*\n', '', code_of(name)))


def digest(code):
    """Returns a comment with the digest of the code of which a diagram is made."""
    return f'<!-- {hashlib.sha256(code.encode()).hexdigest()} -->\n'
