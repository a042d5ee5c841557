"""Calls functions of the proved libraries with the allocator `Global`, as a caller writes them: with the implementations of traits
that their bounds require.
"""
from proved import Pointer

GLOBAL = 'Named', 'std_heap::Global', ()
ALLOC = (((),),)
INPUT = 'Struct', '&[]', (('Ref', ('Int', 8)), ('Int', 64))
STRING = 'Named', 'std_alloc::string::String', (GLOBAL,)
BYTES = 'Named', 'std_alloc::vec::Vec', (('Int', 8), GLOBAL)

LIT_BOOL = 'Named', 'rust_literals::lit_bool::LitBool', ()

# The implementations whose names or type arguments aren't those of their type.
IMPLEMENTATIONS = {
    ('core::fmt::Write', STRING): ('std_alloc::fmt::StringWrite', (GLOBAL,)),
    ('std::io::traits::Write', BYTES): ('std::io::impls::VecU8Write', (GLOBAL,)),
    ('std::io::traits::Read', INPUT): ('std::io::impls::RefSliceU8Read', ()),
    ('rl_tokens::parse::Parse', LIT_BOOL): ('rust_literals::lit_bool::LitBoolParse', (GLOBAL,)),
}

# The libraries, which `tools/mir` sets.
library = None


def implementation(trait, type_):
    """Returns the implementation of a trait for a type, with what it requires."""
    if trait == 'core::marker::Destruct':
        return 'core::Destruct++none', (type_,), ()
    if trait == 'core::clone::Clone' and type_ == GLOBAL:
        return 'core::clone::Clone+copy', (GLOBAL,), ()
    name, types = IMPLEMENTATIONS.get((trait, type_), (type_[1] + trait.split('::')[-1], type_[2]))
    library.load(name.split('::')[0])
    method = library.methods.get((name, 0))
    bounds = library.functions[method]['generics']['bounds'] if method else []
    return name, types, tuple(implementations(bounds, types))


def implementations(bounds, types):
    """Returns the implementations that bounds on these type arguments require."""
    for bound in bounds:
        parameter = bound['types'][0]['Param']
        if parameter < len(types):
            yield implementation(bound['of'], types[parameter])


def run(name, *values, types=None):
    """Calls a function. Without `types`, all type arguments are `Global`."""
    generics = library.function(name)['generics']
    types = (GLOBAL,) * len(generics['types']) if types is None else types
    return library.call(name, *values, types=types, dicts=tuple(implementations(generics['bounds'], types)))


def at(value):
    """Returns a reference to a value."""
    return Pointer([value], 0)
