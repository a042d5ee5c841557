"""The checks of the pages and of the documentation of public items. Each check reports its errors by calling `tell`."""
import fnmatch
import glob
import os
import re
import textwrap

from . import pictures, rules
from .graph import graph
from .items import LIBRARIES, TOP, code_files, core, definition_files, pages, paths, prose_pages, public_items, read, signature_end
from .snippets import EXAMPLE, VALUE, Source, blanked, whole_items
from .style import DEFINED, check_habits, check_public_names

# A block of Rust code on a page.
RUST = re.compile(r'```rust\n(.*?) *```', re.S)
# The first items that a newcomer meets. Each has an example of at most 30 lines, or names the item that has it.
EXAMPLES = {
    'rl_tokens': """
        Kind Span Literal CString Ident Punct Group TokenTree TokenStream Tokens Sources LexError Error ErrorKind Kept ParseBuffer
        Parse Parser Token ToTokens lex parse_all attempt skip xid_ok ParseBuffer::peek ParseBuffer::parse""",
    'rl_grammar': 'Parts shape is_token str_of is_plain explain',
    'rl_quoted': """
        LitStr LitByteStr LitCStr LitByte LitChar LitStr::new LitStr::value LitStr::value_ref LitByteStr::value
        LitByteStr::value_ref LitCStr::value LitByte::value LitChar::value LitStr::parse LitStr::parse_with""",
    'rust_literals': 'Lit Lit::new LitInt LitFloat LitBool Number::base10_digits Number::base10_parse read_all push_leading_literal',
    'rl_attributes': 'Attrs Attrs::get read',
}
# Words that other projects define, and names that no crate has.
FOREIGN = {
    'parse_str', 'proc_macro2', 'from_str_for_fuzzing', 'Lookahead1', 'Punctuated', 'hex_literal_case', 'float_literal_trailing_zero'}
# Pages with names of other projects.
OF_OTHERS = ['docs/DIFFERENCES.md', 'docs/COMPARISON.md', 'docs/PERFORMANCE.md']


def check_items(tell):
    """Checks that each public item has documentation, that an item that returns a Result has `# Errors`, and that the items of
    EXAMPLES have an example with a value, or name the item that has it. Returns the number of public items."""
    public = {crate: public_items(crate) for crate in LIBRARIES}
    shown = {item.name for items in public.values() for _, item in items if item.examples()}
    for crate, items in public.items():
        wanted = EXAMPLES.get(crate, '').split()
        for name in wanted:
            if name not in {item.name for _, item in items}:
                tell(f'crates/{crate}: no public item {name}, of which an example is wanted')
        for path, item in items:
            lacks = {
                'has no documentation': not item.docs.strip(),
                'returns a Result and has no `# Errors`': item.lacks_errors(),
                'has no example': item.name in wanted and not item.examples() and item.named_example() not in shown,
                'has an example without a value': not all(VALUE.search(it) for it in item.examples()),
                'has an example that is too long': any(it.count('\n') > 30 for it in item.examples()),
            }
            for words in filter(lacks.get, lacks):
                tell(f'{path}: {item.name} {words}')
    return sum(map(len, public.values()))


# Types in a signature that allocate memory.
MEMORY = re.compile(r'\b(?:Allocator|AllocError|Global|String|Vec|Box)\b')


def check_core(tell):
    """Checks that no function of the core has an allocator, or a type that allocates memory, in its signature."""
    for crate in core():
        for path in code_files(crate):
            code = blanked(read(path))
            for it in re.finditer(r'(?m)^ *(?:pub )?(?:const )?fn (\w+)', code):
                head = code[it.start():signature_end(code, it.end())]
                if found := MEMORY.search(head):
                    tell(f'{path}: {it[1]} has {found[0]} in its signature, and the core takes no memory')


def words_of(definitions):
    """Returns the definitions without comments and white space."""
    return re.sub(r'\s+', '', re.sub(r'(^|\s)--[^\n]*', r'\1', definitions))


def check_definitions(tell):
    """Checks that each definition on a page is in a crate, comments and white space aside. An empty line separates definitions."""
    found = [words_of(read(it)) for it in definition_files()]
    for page in pages():
        for piece in re.split(r'\n\s*\n', '\n\n'.join(re.findall(r'```antt\n(.*?)```', read(page), re.S))):
            if not any(words_of(piece) in it for it in found):
                tell(f'{page}: is in no source: {piece.strip().splitlines()[0]}')


def check_names(tell):
    """Checks that each public name of specs/ is in only one file."""
    found = {}
    for path in paths('crates/*/specs/**/*.antt'):
        for name in DEFINED.findall(read(path)):
            found.setdefault(name, set()).add(path)
    for name, files in sorted(found.items()):
        if len(files) > 1:
            tell(f'{name} is in {", ".join(sorted(files))}')


def shown_snippets():
    """Iterates over the shown snippets of Rust, each with its position."""
    yield from ((page, textwrap.dedent(it)) for page in pages() for it in RUST.findall(read(page)))
    for path in code_files():
        docs = '\n'.join(re.findall(r'^ *//[/!] ?(.*)$', read(path), re.M))
        yield from ((path, it) for it in EXAMPLE.findall(docs))


def check_snippets(tell):
    """Checks that each shown snippet of Rust consists of whole items of one file, so that shown code is compiled and proved; that
    it imports the names that it uses and contains the other items of that file that it uses, so that it can be pasted; and that the
    result in each line `// CALL == VALUE` is in the rows."""
    sources = [Source(read(it)) for it in code_files() + paths('rust/examples/*.rs')]
    printed = {line.removeprefix('> ') for line in read('rust/programs/rows/tests/calls/uses.rows').split('\n')}
    for where, block in shown_snippets():
        first = block.strip().splitlines()[0] if block.strip() else 'an empty snippet'
        for value in VALUE.findall(block):
            if value not in printed:
                tell(f'{where}: no row of rl_uses prints {value}')
        items, rest = whole_items(block)
        lacks = [it for it in (source.lacks(items) for source in sources) if it is not None]
        if rest or not items:
            tell(f'{where}: is no whole item: {(rest or [first])[0].splitlines()[0]}')
        elif not lacks:
            tell(f'{where}: is in no source: {first}')
        elif min(lacks, key=len):
            tell(f'{where}: lacks {", ".join(sorted(min(lacks, key=len)))}: {first}')


def is_there(path, page):
    """Whether a path on a page names a file or a folder, or one that is built and never committed."""
    ways = [re.sub(r'\b(?:NAME|X|PATH)\b', '*', it) for it in (path, f'{os.path.dirname(page)}/{path}', f'crates/{path}')]
    if any(glob.glob(os.path.join(TOP, it)) for it in ways):
        return True
    kept_out = [it.rstrip('/') for it in read('.gitignore').split()]
    return any(path == it or path.startswith(f'{it}/') or fnmatch.fnmatch(path, f'*/{it}/*') for it in kept_out)


def check_paths(tell):
    """Checks that each link and path of a page names an existing file or folder, and each name of a `.rt` or `.antt` file too."""
    sources = {os.path.basename(it) for it in [*code_files(), *definition_files()]}
    folder = r'(?:docs|tools|oracle|crates|bench|\.ci|rl_\w+|rust_literals)'
    bare_path = re.compile(rf'(?<![\w/.-])({folder}/[\w./-]*[\w/])')
    for page in prose_pages():
        text = read(page)
        for target in re.findall(r'\]\(([^)#]+)(?:#[^)]*)?\)', text):
            if '://' not in target and not is_there(target, page):
                tell(f'{page}: no {target}')
        made = re.findall(r'\$ rt new (\S+)', text)
        for path in bare_path.findall(text):
            if not is_there(path, page) and not any(path == it or path.startswith(f'{it}/') for it in made):
                tell(f'{page}: no {path}')
        for name in re.findall(r'`(\w+\.(?:antt|rt))`', text):
            if name not in sources:
                tell(f'{page}: no file {name}')


def check_words(tell):
    """Checks that each word in code font that looks like the name of a definition or a type is in a source."""
    sources = [*code_files(), *definition_files(), 'crates.txt', *paths('rust/src/**/*.rs')]
    known = FOREIGN.union(*(re.findall(r'\w+', read(path)) for path in sources), *(path.split('.') for path in paths('crates/*/*/*.edit')))
    for page in [it for it in prose_pages() if it not in OF_OTHERS]:
        prose = re.sub(r'```.*?```', '', read(page), flags=re.S)
        for word in re.findall(r'`([A-Z]\w*[a-z]\w*|[a-z]\w*_\w+)`', prose):
            if word not in known:
                tell(f'{page}: {word} is in no source')


# Code that defines or re-exports a name, or that names a clause or a member.
OWN_CODE = re.compile(
    r'\b(?:fn|struct|enum|trait|type|mod|const|ensures|requires|ghost)\s+(\w+)'
    r'|^ +([A-Z]\w*)(?:\([^)]*\))?,|^ +pub (\w+):', re.M)
OWN_DEFINITION = re.compile(r'^ *(?:(?:pub|abbrev|record|data|mod)\s+)*(\w+)\s*[:({]', re.M)
GIVEN_OUT = re.compile(r'pub use ([^;]*);')


def owned_by(crate):
    """Returns the files of a crate, the names that it defines or re-exports, and its commands."""
    definitions = [it for it in definition_files() if it.startswith(f'crates/{crate}/')]
    names = {os.path.basename(it) for it in [*paths(f'crates/{crate}/*'), *code_files(crate), *definitions]}
    names.update(os.path.basename(it)[:-3] for it in code_files(crate))
    for text in map(read, code_files(crate)):
        names.update(it for found in OWN_CODE.findall(blanked(text)) for it in found)
        names.update(re.findall(r'"(\w+)"', text), re.findall(r'\w+', ' '.join(GIVEN_OUT.findall(text))))
    return names.union(*(OWN_DEFINITION.findall(read(it)) for it in definitions))


def placed_names(prose):
    """Iterates over the names that a page assigns to a crate, each with the crate."""
    listed, crate = r'(?P<names>`[^`]+`(?:(?:, | and |, and | or )`[^`]+`)*)', r'`(?P<crate>rl_\w+|rust_literals)'
    for pattern in (rf'{listed} of {crate}`', rf"{crate}`'s? {listed}", rf'{crate}::(?P<names>[\w:]+)'):
        for it in re.finditer(pattern, prose):
            yield from ((name, it['crate']) for name in it['names'].split('`')[1::2] or [it['names']])


def check_owners(tell):
    """Checks that a name that a page assigns to a crate belongs to that crate, if it belongs to any."""
    own = {it.split('/')[1]: owned_by(it.split('/')[1]) for it in paths('crates/*/src')}
    for page in prose_pages():
        prose = re.sub(r'\s+', ' ', re.sub(r'```.*?```', '', read(page), flags=re.S))
        for name, crate in placed_names(prose):
            is_file = name.endswith(('.antt', '.rt'))
            is_item = re.fullmatch(r'[\w:]+', name) and name not in own
            for part in [name] if is_file else name.split('::') if is_item else []:
                others = [it for it in own if part in own[it]]
                if crate in own and others and crate not in others:
                    tell(f'{page}: {name} is of {", ".join(others)}, not of {crate}')


def check_errors(tell):
    """Checks that each kind of error is on the page of errors."""
    page = read('docs/ERRORS.md')
    for _, item in [*public_items('rl_tokens'), *public_items('rl_grammar')]:
        owner, _, name = item.name.partition('::')
        is_error = item.kind == 'part' and owner in ('ErrorKind', 'LexKind', 'FlawKind')
        if is_error and f'`{name}`' not in page and f'`{item.name}`' not in page:
            tell(f'docs/ERRORS.md: {item.name} is missing')


def check_limits(tell):
    """Checks that the page of speed has the number of limits that are above their lowest value."""
    limits = [line.split('\t') for line in read('bench/limits').split('\n') if line and not line.startswith('# ')]
    for corpus, work, limit, lowest in limits:
        if float(lowest) > float(limit):
            tell(f'bench/limits: {corpus}, {work}: the lowest limit is above the limit')
    above = sum(float(lowest) < float(limit) for _, _, limit, lowest in limits)
    if f'{above} of the {len(limits)} limits are above' not in read('docs/PERFORMANCE.md'):
        tell(f'docs/PERFORMANCE.md: {above} of the {len(limits)} limits are above the lowest that they were')


# The limits on docs/RELIABILITY.md: the first cells of each row, and the constant in the sources.
LIMITS = {
    '| 128 bits | an integer |': ('rl_syntax/specs/Numbers.antt', 'limit = 2 ^ 128 - 1'),
    '| 128 | groups that are open at once |': ('rl_tokens/src/nest.rt', 'const MAX_OPEN: usize = 128;'),
    '| 255 | hashes of a raw string |': ('rl_theorem/specs/RustRules.antt', 'nat_lt hashes 256'),
    '| 1 GiB | a file or standard input of `rl_scan` |': ('rl_files/src/host.rt', 'const LONGEST: u64 = 1 << 30;'),
    '| 1 MiB | a literal for which `--check` and `--stats` name rules |': ('rl_scan/src/rewriting.rt', 'const LONGEST_NAMED: usize = 1 << 20;'),
    '| 100 | names that `--fix` tries for its temporary file |': ('rl_files/src/whole_file.rt', 'const TRIES: u32 = 100;'),
    '| 4,294,967,295 | calls of a reader for one input of `rl_tool` |': ('rl_program/src/streams.rt', 'const TURNS: u32 = u32::MAX;'),
    '| 4,294,967,295 | directories entered in a row': ('rl_files/src/walk.rt', 'const TURNS: u32 = u32::MAX;'),
}


def check_source_limits(tell):
    """Checks that each row of the table of limits is listed above, and that the sources have its constant."""
    rows = read('docs/RELIABILITY.md').split('| Limit | Applies to |')[1].split('\n\n')[0].split('\n')[2:]
    for row in rows:
        path, constant = next((its for head, its in LIMITS.items() if row.startswith(head)), (None, None))
        if path is None or constant not in read(f'crates/{path}'):
            tell(f'docs/RELIABILITY.md: no source has the limit: {row}')


# A row of the table of options of rl_scan with its lines of the help, and a line that begins an option.
OPTION_ROW = re.compile(r"""OptionRow \{ name: "(--[\w-]*)", letter: '(\\0|.)', modes: (\w+), value: Value::(\w+).*, help: "([^"]*)" \}""")
OPTION_LINE = re.compile(r'(?m)^ {2,6}(?:-(\w), )?(--[\w-]*)( [A-Z][A-Z,.]*)?(?: |$)')


def check_options(tell):
    """Checks that each row of the table of rl_scan has its option, letter and value in its lines of the help, and that the manual
    has the modes of the table."""
    path = 'crates/rl_scan/src/options.rt'
    code = read(path)
    rows = [(name, letter.strip('\\0'), *others) for name, letter, *others in OPTION_ROW.findall(code)]
    if not rows or len(rows) != code.count('    OptionRow {'):
        tell(f'{path}: a row has another form')
    for name, letter, _, value, lines in rows:
        shown = [(said, short, bool(takes)) for short, said, takes in OPTION_LINE.findall(lines)]
        if shown != [(name, letter, value != 'None')]:
            tell(f'{path}: the lines of the help of {name} differ from its row')
    names = {f'-{letter}': name for name, letter, *_ in rows}
    part = read('docs/PROGRAMS.md').split('| Modes in which they have an effect |\n|---|---|\n')[1].split('\n\n')[0]
    groups = [{names.get(it, it) for it in re.findall('`(-.*?)`', line.split('|')[1])} for line in part.split('\n')]
    modes = {}
    for name, _, of_row, *_ in rows:
        modes.setdefault(of_row, set()).add(name)
    wanted = [modes[it] for it in modes if it not in ('ALL', 'READING')]
    if sorted(map(sorted, filter(None, groups))) != sorted(map(sorted, wanted)):
        tell(f'docs/PROGRAMS.md: the options and their modes differ from {path}')


# The values that a rule may have, as the output of --rules shows them.
RULE_VALUES = {'Truth': 'true or false', 'Case': '"lower" or "upper"', 'Separator': '"" or "_"', 'Size': 'NUM'}


def check_rules(tell):
    """Checks that the output of rl_scan --rules has the rules of a style with their values, in their order, and the manual too."""
    code = read('crates/rl_restyle/src/rule.rt')
    kinds = {rule: kind for rules, kind in re.findall(r'((?:\|?\s*Rule::\w+\s*)+)=> Expected::(\w+)', code)
             for rule in re.findall(r'Rule::(\w+)', rules)}
    table = [(name, RULE_VALUES[kinds.get(rule, 'Truth')]) for name, rule in re.findall(r'"(\w+)" => Some\(Rule::(\w+)\)', code)]
    shown = re.findall(r'(?m)^(\w+) = (.*)$', read('crates/rl_scan/src/pages.rt'))
    for name, values in sorted(set(table) ^ set(shown)):
        tell(f'crates/rl_scan/src/pages.rt: {name} = {values} differs from rule.rt')
    if not table or [name for name, _ in table] != [name for name, _ in shown]:
        tell('crates/rl_scan/src/pages.rt: the rules have another order than rule.rt')
    listed = set(re.findall(r'(?m)^\| `(\w+) = ', read('docs/PROGRAMS.md')))
    for name in sorted(listed ^ {name for name, _ in table}):
        tell(f'docs/PROGRAMS.md: {name} is a rule in only one of the manual and rule.rt')


def check_diagrams(tell):
    """Checks that each diagram is on a page and shows a definition that is in a source, and that the diagrams of the rules and of
    the crates are up to date."""
    defined = set(re.findall(r'(?m)^(?:abbrev |unfoldable |opaque )*(?:pub )?(?:record|data|abbrev) (?:pub )?(\w+)',
                             '\n'.join(map(read, paths('crates/rl_syntax/specs/*.antt', 'crates/rl_lexer/specs/*.antt')))))
    shown = ''.join(map(read, paths('docs/*.md')))
    for path in paths('docs/diagrams/*.svg'):
        name = os.path.basename(path)[:-len('.svg')]
        if f'(diagrams/{name}.svg)' not in shown:
            tell(f'{path}: no page shows it')
        if name == 'crates':
            if pictures.digest(graph()) not in read(path):
                tell(f'{path}: it is not what crates.txt says: run tools/diagrams')
        elif f'{name}.antt' in rules.FILES:
            if pictures.mark(f'{name}.antt') not in read(path):
                tell(f'{path}: it does not show the present rules: run tools/diagrams')
        elif name not in defined:
            tell(f'{path}: there is no definition of this name')


def check_map(tell):
    """Checks that the map lists each crate once, in the table of its layer, and has the numbers of the crates."""
    page = read('docs/MAP.md')
    for name, count in re.findall(r'\*\*(\w+)\*\*: (\d+) crates', page) + re.findall('(The) ([0-9]+) crates', page):
        rows = page.split('## The ')[1] if name == 'The' else page.split(f'\n{name}:\n\n')[1].split('\n\n')[0]
        if len(re.findall(r'(?m)^\| `r\w+` \|', rows)) != int(count):
            tell(f'docs/MAP.md: the tables have another number of crates than {name} {count}')
    if sorted(re.findall(r'(?m)^\| `(r\w+)` \|', page)) != sorted(it.split('/')[1] for it in paths('crates/*/src')):
        tell('docs/MAP.md: the tables have other crates than the folder crates')


OF_PAGES = (
    check_core, check_map, check_paths, check_snippets, check_definitions, check_names, check_words, check_owners,
    check_errors, check_diagrams, check_limits, check_source_limits, check_options, check_rules, check_habits, check_public_names)
