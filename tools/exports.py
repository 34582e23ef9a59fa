#!/usr/bin/env python3
"""Makes the exports of the library for C, crates/library_c/src/lib.rt, of the functions of crates/library/src/lib.rt: each calls its function and has the same clauses.

    tools/exports.py            writes them
    tools/exports.py --check    says whether they are those of the functions, and writes nothing
"""
import os
import re
import sys

HERE = os.path.dirname(os.path.dirname(os.path.realpath(__file__)))
FROM, TO = (os.path.join(HERE, 'crates', name, 'src', 'lib.rt') for name in ('library', 'library_c'))
WIDTH = 100  # the columns of a line, as rt fmt has it; a clause may be longer
HEAD = '''\
// What the archive libstaran.a exports: the functions of `library` under their own names, each with the very same clauses. tools/exports.py makes this file of theirs.
//
// A slice passes as a pointer and a length; an array and the register record, as a pointer.
#![tactic(auto)]
'''
# The words above a function, its name, its lifetimes, its parameters, what it gives, and its clauses.
FUNCTION = re.compile(r'^((?://[^\n]*\n)+)pub fn (\w+)(<[^>]*>)?\((.*?)\)( -> \w+)?\n((?:    [^\n]*\n)+)\{\n', re.M | re.S)


def export(words, name, lifetimes, parameters, gives, clauses):
    """A function's export, in rt fmt's layout."""
    taken = [p.strip() for p in parameters.split(',') if p.strip()]
    start = 'pub extern "C" fn %s%s' % (name, lifetimes)
    line = '%s(%s)%s' % (start, ', '.join(taken), gives)
    if len(line) > WIDTH:
        line = '%s(\n%s)%s' % (start, ''.join('    %s,\n' % p for p in taken), gives)
    call = 'library::%s(%s)' % (name, ', '.join(p.split(':')[0] for p in taken))
    return '\n%s#[unsafe(no_mangle)]\n%s\n%s{\n    %s\n}\n' % (words, line, clauses, call)


def made(library):
    """The exports of a library's text: what its clauses and its parameters name is brought in as there."""
    brought = re.findall(r'^(?:ghost )?use [^;]*;\n', library, re.M)
    ghosts = [line for line in brought if line.startswith('ghost')]
    types = [line for line in brought if not line.startswith('ghost')]
    functions = FUNCTION.findall(library)
    lost = sorted(set(re.findall(r'^pub fn (\w+)', library, re.M)) - {f[1] for f in functions})
    if lost:
        sys.exit('tools/exports.py cannot read %s of crates/library/src/lib.rt' % ', '.join(lost))
    return HEAD + '\n' + ''.join(ghosts) + '\n' + ''.join(types) + ''.join(export(*f) for f in functions)


def main(words):
    if words not in ([], ['--check']):
        sys.exit(__doc__)
    with open(FROM, encoding='utf-8') as file:
        text = made(file.read())
    if not words:
        os.makedirs(os.path.dirname(TO), exist_ok=True)
        with open(TO, 'w', encoding='utf-8') as file:
            file.write(text)
    elif not os.path.exists(TO) or open(TO, encoding='utf-8').read() != text:
        sys.exit('crates/library_c/src/lib.rt: not what tools/exports.py makes of crates/library/src/lib.rt')


if __name__ == '__main__':
    main(sys.argv[1:])
