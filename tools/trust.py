#!/usr/bin/env python3
"""Counts the lines that a reader must believe, on the page that lists them, docs/TRUST.md.

    tools/trust.py            writes the counts of the table and their sum
    tools/trust.py --check    says whether the page has them, names every file of specs/, and writes nothing
"""
import os
import re
import sys

HERE = os.path.dirname(os.path.dirname(os.path.realpath(__file__)))
PAGE = os.path.join(HERE, 'docs/TRUST.md')
ROW = re.compile(r'^\| (crates/(\w+)/specs/(\w+)\.antt) \| \d+ \|', re.M)


def lines(name):
    with open(os.path.join(HERE, name), encoding='utf8') as f:
        return len(f.read().splitlines())


def counted(page):
    """The page with the count of each file in its row, and the sum in the last."""
    total = sum(lines(name) for name, _, _ in ROW.findall(page))
    page = ROW.sub(lambda m: f'| {m.group(1)} | {lines(m.group(1))} |', page)
    return re.sub(r'^\| together \| \d+ \|', f'| together | {total} |', page, flags=re.M)


def unnamed(page):
    """The files of specs/ that the page neither counts nor lists as not to be believed; a crate's Lib has no definition."""
    believed = {(crate, name) for _, crate, name in ROW.findall(page)}
    missing = []
    for crate in sorted(os.listdir(os.path.join(HERE, 'crates'))):
        folder = os.path.join(HERE, 'crates', crate, 'specs')
        for file in sorted(os.listdir(folder)) if os.path.isdir(folder) else []:
            name = file.removesuffix('.antt')
            if name != 'Lib' and (crate, name) not in believed and f'`{crate}/specs/{name}`' not in page:
                missing.append(f'{crate}/specs/{name}')
    return missing


def main(words):
    if words not in ([], ['--check']):
        sys.exit(__doc__)
    with open(PAGE, encoding='utf8') as f:
        page = f.read()
    absent = [name for name, _, _ in ROW.findall(page) if not os.path.exists(os.path.join(HERE, name))]
    if absent:
        sys.exit(f'docs/TRUST.md: there is no {", ".join(absent)}')
    missing = unnamed(page)
    if missing:
        sys.exit(f'docs/TRUST.md: says nothing of {", ".join(missing)}')
    made = counted(page)
    if not words:
        with open(PAGE, 'w', encoding='utf8') as f:
            f.write(made)
    elif made != page:
        sys.exit('docs/TRUST.md: the counts are not those of the files; tools/trust.py writes them')


if __name__ == '__main__':
    main(sys.argv[1:])
