"""The page docs/THEOREM.md: the contracts of rl_theorem, and then each definition that they need, once."""
import collections
import re

from .contracts import clauses_of, quoted
from .defined import found_in, modules, uses_of
from .items import items_of, read

PAGE, ROOT = 'docs/THEOREM.md', 'crates/rl_theorem/src/lib.rt'
# The contracts beside the headline: the loop over a list, and reading a list again.
BESIDE = {'literal_at', 'both_ways', 'read_again'}
INTRODUCTION = """# The theorem

For those who must decide whether to believe the headline:

{headline}

This page has all that the headline rests on: the contracts of [rl_theorem](../crates/rl_theorem/src/lib.rt), then each definition
that they need, in groups, and the names of Rattle's standard library. `rt check` in `crates/rl_theorem` proves the contracts.
`tools/docs --write` writes the page from the sources, and counts:

- All contracts but `literal_at`, `both_ways` and `read_again` need {headline_n} definitions in
  {headline_n_lines} lines, of which {headline_n_code} aren't comments.
- All contracts need {all} definitions in {all_lines} lines, of which {all_code} aren't comments, and {types} types of the code in
  {types_lines} lines.

How to read it:

- A text is a list of the codes of its characters, and bytes are a list of numbers below 256. Both have the type `List ℕ`. `chars`
  decodes bytes to a text. `x.now` is the value of a borrowed argument.
- A *strict* text is a literal token of the Rust Reference, or `true` or `false`. *Trivia* are white space and plain comments. A
  *printed list* is a text of literals one after another. The *contents* of a literal are its value. A *written value* is the literal
  that a writer returns for a string, bytes, a C string, a byte or a character.
- A token (`Literal`) and each of `LitStr`, `LitByteStr`, `LitCStr`, `LitByte`, `LitChar`, `LitInt` and `LitFloat` is a text in UTF-8,
  held as bytes, and a span: `SpannedText`. A `LitBool` is a `bool` and a span. `Kept` is an error, and the value that is handed back.
- `⊎` is *or*, `×` is *and* or *there is*, `→` is *for all* or *implies*, `≡` is *equals*, `≢` is *differs from*, `⊥` is *false*,
  and `⊤` is *true*. An operator in this list binds tighter than those after it: a field such as `l.text`; a function and its
  arguments; `^`; `*`, `/` and `%`; `∷`; `+`, `-` and `++`; `==` and `is`; `&&`; `⋅` and `||`; `∣`; `≡` and `≢`; `×`; `⊎`; `→`.
- `pub record` begins a structure, or a statement that consists of its fields. `pub data` lists constructors. Other definitions
  consist of equations, of which the first that fits counts. `record {{ a = x }}` is the record with these fields, and
  `record r {{ a = x }}` is `r` with another `a`. `p.0` and `p.1` are the parts of a pair. `suc n` is `n + 1`. `StrKind` and the like
  are the variants of `Kind`.
- `∷` puts an element before a list, and `++` joins two lists. `codes "ab"` is the list of the codes of `a` and `b`.
  `digits_onto m 10 false n []` is the digits of `n` in base ten, if `m` is above the number of the digits.
- `IsTrue b` states that a test succeeds. `IfOk result (λ x. P)` states `P` of the value `x` if the result is `Ok`, and
  `IfErr result (λ e. P)` states `P` of the error `e` if it is `Err`.
- `Memory` is the error for a failed allocation. No contract states that an allocation failed if `Memory` is returned, or that a
  call succeeds: Rattle's allocators promise neither. So a function that always returned `Memory` would fulfill each contract except that
  of `literal_at`, which allocates nothing, and that of `suffix_of`.
- Each grammar consists of rules. Rust's are those of the Rust Reference, `syn`'s are those of its parser, and
  [DIFFERENCES.md](DIFFERENCES.md) lists the exceptions. Not all that `syn` parses is Rust's. That the rules are those of rustc and `syn` isn't proved, but [compared](COMPARISON.md).
- No contract states that an integer above 128 bits has no parse result. It follows from the rules of `syn_literal`: `Int` tests the
  number, and `Float` excludes integers of any size. The lemma `read_within` in `crates/rl_strict/proofs/LimitLemmas.antt` proves it of
  `Reads`, the definition that agrees with these rules by the law `syn_literals_are_by_the_rules`. By the law
  `a_strict_literal_is_a_syn_literal_or_above_128_bits` in `crates/rl_strict/src/laws.rt`, every other strict text has a parse result.
- The page leaves out the bodies of the functions, which only call the libraries. Except for `read_again`, no contract
  states what the loop and `read_all` return for a text that isn't a printed list. That a text has at most one parse result, also
  without a call, is the law `a_text_has_one_reading` in `crates/rl_syntax/src/laws.rt`.
"""
# The groups of the definitions: a heading, and the files.
GROUPS = {
    'Literals and parse results': r'rl_theorem/specs/Headline|rust_literals/specs/Literals|rl_syntax/specs/Reading|\.rt$',
    'Printed lists': r'rl_theorem/specs/Printed|rust_literals/specs/ReadBack|rl_syntax/specs/(Trivia|Texts)',
    'The loop over a list': r'rl_theorem/specs/Lists|rl_cursors|rl_lenient',
    'Reading a list again': r'rust_literals/specs/(Reprints|LitParts)',
    'Writing a value': r'rl_syntax/specs/(Written|Quoted)',
    'The notation of the rules': r'rl_theorem/specs/Notation',
    "Rust's grammar": r'rl_theorem/specs/RustRules|rl_syntax/specs/(Spelling|Strict)',
    "`syn`'s grammar": r'rl_theorem/specs/SynRules|rl_syntax/specs/Numbers',
}
WORD = re.compile(r"[^\W\d][\w'-]*(?:\.[^\W\d][\w'-]*)*|[^\s\w(){}\[\].,;:\"]+")


def words_of(text):
    """Iterates over the names of a text, in their order, without those in comments."""
    for word in WORD.findall(re.sub(r'(?m)(--|//).*', '', text)):
        yield word
        yield word.split('.')[0]
        yield f'◌{word}◌'


def definitions(without=()):
    """Returns what the contracts need, in the order of first use, and the names of std that these use, by module."""
    found, standard = [], {}
    clauses = ' '.join(said for it in items_of(ROOT) if it.name not in without for _, _, said in clauses_of(ROOT, it))
    waiting = collections.deque([(clauses, uses_of(read(ROOT)), {})])
    while waiting:
        text, imported, defined = waiting.popleft()
        for word in words_of(text):
            it = defined.get(word) or (found_in(*imported[word]) if word in imported else None)
            if it and it not in found:
                found.append(it)
                own, its = modules().get(it.module, ({}, {}))
                waiting.append((it.text, its, own) if it.path.endswith('.antt') else ('', {}, {}))
            elif not it and word in imported and not word.startswith('◌'):
                standard.setdefault(imported[word][0], set()).add(imported[word][1])
    return found, standard


def group_of(path):
    """Returns the heading of the group to which a file belongs."""
    return next(title for title, files in GROUPS.items() if re.search(files, path))


def shown(it):
    """Returns the text of a definition on the page: without the types of rules and the precedence of signs."""
    return re.sub(r'(?m)^(infixr? .*|abbrev pub [\w◌⋅∣]+ : [^\n]*Rule)\n', '', it.text)


def figures(name, found):
    """Returns the numbers of some definitions, or of some types, for the head of the page."""
    lines = [line for it in found for line in shown(it).split('\n') if line]
    return {name: len(found), f'{name}_lines': len(lines), f'{name}_code': sum(not re.match(r' *(--|//)', it) for it in lines)}


def page():
    """Returns the page, as in the sources."""
    functions = [line for it in items_of(ROOT) if it.kind == 'fn' for line in [*quoted(ROOT, it, {}), '']]
    found, standard = definitions()
    parts = {'Contracts': functions[:-1]}
    for title in GROUPS:
        last, rows = '', parts.setdefault(title, [])
        those = [it for it in found if group_of(it.path) == title]
        files = list(dict.fromkeys(it.path for it in those))
        in_order = lambda it: read(it.path).index(it.text) if it.path.endswith(('Notation.antt', 'Rules.antt')) else 0
        for it in sorted(those, key=lambda it: (files.index(it.path), in_order(it))):
            mark = '//' if it.path.endswith('.rt') else '--'
            if it.path != last:
                rows += [''] * bool(rows) + [f'{mark} {it.path.removeprefix("crates/")}:']
            rows += [shown(it)]
            last = it.path
    parts['Names of the standard library'] = [f'{module}: {", ".join(sorted(those))}' for module, those in sorted(standard.items())]
    body = ''.join('\n'.join([f'\n## {title}\n', '```text', *those, '```', '']) for title, those in parts.items())
    counts = figures('types', [it for it in found if it.path.endswith('.rt')])
    for name, without in {'headline_n': BESIDE, 'all': ()}.items():
        counts |= figures(name, [it for it in definitions(without)[0] if it.path.endswith('.antt')])
    headline = re.search(r'(?m)^> .*', read('docs/PROVED.md'))[0]
    return INTRODUCTION.format(headline=headline, **counts) + body
