"""The picture of the crates for docs/MAP.md, as a graph for `dot`."""
from trying.crates import Crates

from .items import TOP, families

# The libraries for callers on which no other library for callers depends.
CALLED = ['rl_grammar', 'rl_attributes']


def graph():
    """Returns the graph of crates.txt, in families. A crate is linked to each crate that it names, unless another crate that it
    names depends on that one."""
    crates = Crates(TOP)
    core, above, development = families()
    library = {it for called in CALLED for it in [called, *crates.below(called)]}
    named = {
        'core': core,
        'library': [it for it in above if it in library],
        'programs': [it for it in above if it not in library],
        'development': development,
    }
    rows = ['digraph crates {', '  rankdir=BT; node [shape=box, fontname="sans-serif"]; fontname="sans-serif";']
    for family, those in named.items():
        rows.append(f'  subgraph cluster_{family} {{')
        rows.append(f'    label="{family}: {len(those)}"; labeljust=l; style=filled; color="#eeeeee";')
        rows += [f'    {crate};' for crate in those] + ['  }']
    for crate in crates.lines:
        names = sorted(it for it in crates.right_below(crate) if it in crates)
        rows += [f'  {crate} -> {it};' for it in names if not any(it in crates.below(other) for other in names)]
    return '\n'.join([*rows, '}', ''])
