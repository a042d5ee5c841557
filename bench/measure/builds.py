"""Measures the build of a program that parses a literal, for each library: processor time, and bytes of code."""
import glob
import os
import resource
import shutil
import subprocess
import sys

from measure import build, tables

TABLE = 'Builds'
FOLDER = os.path.join(build.BUILD, 'builds')
# The number of times that each time is measured.
ROUNDS = 3
# The package, with its default features, without and with `full`, and the other libraries. Each has a name (that of bench/limits for the
# package), the dependency line for Cargo, and the code that parses a literal.
OURS = {'package, full': 'code', 'package, no features': 'code, no features'}
PATH = os.path.join(build.TOP, 'rust')
READ = """
use navyspindle::Lit;
match Lit::parse(&text) {
    Ok(Lit::Int(literal)) => println!("{:?}", literal.value::<u64>().ok()),
    Ok(Lit::Str(literal)) => println!("{}", literal.value()),
    Ok(literal) => println!("{}", literal.suffix()),
    Err(error) => println!("{error}"),
}"""
SYN = """
use syn::Lit;
match syn::parse_str::<Lit>(&text) {
    Ok(Lit::Int(literal)) => println!("{:?}", literal.base10_parse::<u64>().ok()),
    Ok(Lit::Str(literal)) => println!("{}", literal.value()),
    Ok(literal) => println!("{}", literal.suffix()),
    Err(error) => println!("{error}"),
}"""
LIBRARIES = {
    'package': ('navyspindle = { path = "%s" }' % PATH, READ),
    'package, no features': ('navyspindle = { path = "%s", default-features = false }' % PATH, READ),
    'package, full': ('navyspindle = { path = "%s", features = ["full"] }' % PATH, READ),
    'package, proc-macro': ('navyspindle = { path = "%s", default-features = false, features = ["proc-macro"] }' % PATH, READ),
    'package, proc-macro, settings': (
        'navyspindle = { path = "%s", default-features = false, features = ["proc-macro", "settings"] }' % PATH, READ),
    'litrs': ('litrs = { version = "0.2", default-features = false }', """
use litrs::Literal;
match Literal::parse(&*text) {
    Ok(Literal::Integer(literal)) => println!("{:?}", literal.value::<u64>()),
    Ok(Literal::String(literal)) => println!("{}", literal.value()),
    Ok(literal) => println!("{literal}"),
    Err(error) => println!("{error}"),
}"""),
    'syn': ('syn = { version = "1", default-features = false, features = ["parsing"] }', SYN),
    'syn, proc-macro, printing': (
        'syn = { version = "1", default-features = false, features = ["parsing", "printing", "proc-macro"] }', SYN),
}
PROGRAM = """fn main() {
    let text = std::env::args().nth(1).unwrap_or_default();
%s
}
"""
MANIFEST = """[package]
name = "program"
version = "0.1.0"
edition = "2021"
[dependencies]
%s
[workspace]
"""
# The ways of building: each has a name, further arguments for Cargo, and a folder. A macro in a release build isn't optimized
# either.
WAYS = {
    'dev': ([], {}, 'debug'),
    'macros of a release build': ([], {'CARGO_PROFILE_DEV_DEBUG_ASSERTIONS': 'false', 'CARGO_PROFILE_DEV_OVERFLOW_CHECKS': 'false'}, 'debug'),
    'release': (['--release'], {}, 'release'),
}


def program(name):
    """Creates the folder of the program that uses this library."""
    folder = os.path.join(FOLDER, name)
    dependency, body = LIBRARIES[name]
    os.makedirs(os.path.join(folder, 'src'), exist_ok=True)
    with open(os.path.join(folder, 'Cargo.toml'), 'w') as file:
        file.write(MANIFEST % dependency)
    with open(os.path.join(folder, 'src/main.rs'), 'w') as file:
        file.write(PROGRAM % body.replace('\n', '\n    ').strip('\n'))
    return folder


def built(name, way):
    """Returns the processor time of a build of the program and its libraries from an empty folder, and the bytes of code of the
    libraries."""
    words, environment, profile = WAYS[way]
    target = os.path.join(program(name), 'target')
    shutil.rmtree(target, ignore_errors=True)
    before = resource.getrusage(resource.RUSAGE_CHILDREN).ru_utime
    command = ['cargo', 'build', '--offline', '--quiet', *words]
    # Otherwise Cargo would compile this package incrementally, because it is in a folder, and the other libraries not.
    environment = {**os.environ, 'CARGO_INCREMENTAL': '0', **environment}
    subprocess.run(command, cwd=program(name), check=True, env=environment)
    spent = resource.getrusage(resource.RUSAGE_CHILDREN).ru_utime - before
    # The code of build scripts isn't counted.
    return spent, sum(map(code_of, glob.glob(os.path.join(target, profile, 'deps/*.rlib'))))


def code_of(path):
    """Returns the bytes of code of a library, as `size` counts them in its object files."""
    lines = build.output(['size', path]).splitlines()[1:]
    return sum(int(line.split()[0]) for line in lines)


def there():
    """Returns the libraries that are installed."""
    found = []
    for name in LIBRARIES:
        command = ['cargo', 'metadata', '--offline', '--quiet', '--format-version', '1']
        if subprocess.run(command, cwd=program(name), capture_output=True).returncode:
            print('bench/run: %s is left out: Cargo has no package of it' % name, file=sys.stderr)
        else:
            found.append(name)
    return found


def print_table():
    note = 'Processor seconds of a program that reads a literal and of its libraries, from nothing, the least of %d rounds in '
    note += 'which they take turns; bytes of code of the libraries.'
    tables.begin(TABLE, ('Library', 'built for', 'seconds', 'bytes'), note % ROUNDS)
    names = there()
    for way in WAYS:
        rounds = [{name: built(name, way) for name in names} for _ in range(ROUNDS)]
        for name in names:
            tables.row(name, way, '%.1f' % min(each[name][0] for each in rounds), str(rounds[0][name][1]))


def sizes(rows):
    """Returns the package's bytes of code for each way of building, from the rows of the table."""
    return {(OURS[name], way): int(size) for name, way, _, size in rows if name in OURS}


def counted():
    """Builds the package, and returns its bytes of code for each way of building."""
    return {(work, way): built(name, way)[1] for name, work in OURS.items() for way in WAYS}
