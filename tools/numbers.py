#!/usr/bin/env python3
"""Makes what is printed of the numbers from their one table, docs/numbers.tsv.

    tools/numbers.py            writes docs/NUMBERS.md and include/staran_numbers.h
    tools/numbers.py --check    says which of them is not what the table makes, and writes nothing
"""
import os
import sys
import textwrap

HERE = os.path.dirname(os.path.dirname(os.path.realpath(__file__)))
TABLE = 'docs/numbers.tsv'
PAGE = 'docs/NUMBERS.md'
HEADER = 'include/staran_numbers.h'

PAGE_HEAD = """# Every number

What the program and the library give back, when, and what to do about it. `./staran numbers` prints this table, `./staran numbers N` one row,
and `./staran why FOLDER` runs a folder and says what its number means there. In C a number has the name below with `STARAN_` in front, and
`staran_meaning` gives its meaning as text. tools/numbers.py makes this page from docs/numbers.tsv, where the table is kept.

**Place** is counted from 0. It is the instruction for 5 to 9, 11 to 14, 16 to 18 and 40, the block for 21 to 24, and otherwise 0; of a step it is always 0.
**Byte**, 0 to 7, is the first byte of that instruction that is wrong by the number given. A run and a step answer with it, and the program prints it behind
the place on every line. It is 0 where the table has none: for done, where no instruction is spoken of, and for 12 and 13, whose instruction is right by itself.
**Order**: the first number that applies is given. A run judges 1, 2, 3, 4, 15; then each instruction in turn, 5 to 9, 14, 18, 16, 17, 11 within it; then 12;
then 13. A step judges 1, 3, 4, 15 and so on. Reading judges the kind asked for (22), 20, then each block in turn, 21 to 24 within it, then 25, then 26, then 15;
writing 22, 26, 15, 27: in both 15 is of a picture of kind 4 alone. Converting a picture judges the file as reading does, to 25; then, new to old, 15 and 28; then 27.
A list's builder judges 35, 30, 31, 32, 34, 33, in this order, those of them that it has. Who asks whether a list is isolated is answered 2, 3, 15; then 40.
The reach of a list judges 2, 3, 15, 27; the showing of a list as text 3, 27. The making of a list from text judges 50; then the text's lines in turn, one word after the
other: 60 to 69 and, in statements, 70 to 77, 30, 31, 32 and 34; then 3, 4, 33. It has line and column instead of a place, both counted from 1, of the word that is wrong,
for 69 of the line's end, for 75 and 77 of the line's first word; for 50, 3, 4 and 33 both are 0.
A refusal has 0 for all counts and changes nothing that was lent; the program then writes no after.pic.
10 is not given: since version 4.0 it is 18, 16 or 17.

| No. | Name in C | Given by | When | Byte | What to do |
|---|---|---|---|---|---|
"""

HEADER_HEAD = """/* The numbers that the library gives back, and what each means. tools/numbers.py makes this file from docs/numbers.tsv: change that.
 *
 * staran.h includes it; docs/NUMBERS.md is the same table with the order in which numbers are judged. */
#ifndef STARAN_NUMBERS_H
#define STARAN_NUMBERS_H

#include <stdint.h>

enum {
"""

MEANING_HEAD = """
/* What a number means, in words: when it is given. A number that is never given has a sentence too; the pointer is never null.
 * It is compiled into its caller, so that libstaran.a holds proved functions alone. */
static inline const char *staran_meaning(uint32_t number)
{
    switch (number) {
"""


def rows():
    """The table: number, name, given by, when, byte, what to do."""
    with open(os.path.join(HERE, TABLE), encoding='utf-8') as file:
        lines = [line.rstrip('\n') for line in file if not line.startswith('#')]
    table = [line.split('\t') for line in lines]
    for row in table:
        if len(row) != 6 or not row[0].isdigit() or not all(row) or not ''.join(row).isascii() or '"' in ''.join(row):
            sys.exit('%s: a line is not number, name, given by, when, byte, what to do: %r' % (TABLE, row))
    numbers = [int(row[0]) for row in table]
    if numbers != sorted(set(numbers)) or len({row[1] for row in table}) != len(table):
        sys.exit('%s: numbers rise, and none and no name stands twice' % TABLE)
    return table


def name(row):
    return ('' if row[0] == '0' else 'REFUSED_') + row[1]


def page(table):
    return PAGE_HEAD + ''.join('| %s | `%s` | %s |\n' % (row[0], name(row), ' | '.join(row[2:])) for row in table)


def header(table):
    out = HEADER_HEAD
    for row in table:
        last = row is table[-1]
        out += '    /* %s */\n' % '\n       '.join(textwrap.wrap('%s: %s' % (row[2], row[3]), 110))
        out += '    STARAN_%s = %s%s\n' % (name(row), row[0], '' if last else ',')
    out += '};\n' + MEANING_HEAD
    for row in table:
        parts = textwrap.wrap(row[3], 100, drop_whitespace=False)
        out += '    case STARAN_%s:\n        return %s;\n' % (name(row), '\n               '.join('"%s"' % part for part in parts))
    return out + '    default:\n        return "no such number is ever given";\n    }\n}\n\n#endif\n'


def main(words):
    if words not in ([], ['--check']):
        sys.exit(__doc__)
    table, wrong = rows(), []
    for path, text in ((PAGE, page(table)), (HEADER, header(table))):
        full = os.path.join(HERE, path)
        if words:
            with open(full, encoding='utf-8') as file:
                if file.read() != text:
                    wrong.append(path)
        else:
            with open(full, 'w', encoding='utf-8') as file:
                file.write(text)
    if wrong:
        sys.exit('not what %s makes: %s. tools/numbers.py makes it again' % (TABLE, ', '.join(wrong)))


if __name__ == '__main__':
    main(sys.argv[1:])
