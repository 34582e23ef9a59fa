#!/usr/bin/env python3
"""Shows what a refusal points at: the instruction byte by byte, with a mark at the byte that the program named, and the mode registers that are
set before it where it names one; or the head of the block, or the mode registers of a picture. ./staran why calls it, with the first words of the
program's line, and ./staran convert, with the file that it was to convert.

    tools/why.py FOLDER LETTER NUMBER PLACE BYTE
    tools/why.py FILE new|old NUMBER PLACE
"""
import os
import sys

HERE = os.path.dirname(os.path.dirname(os.path.realpath(__file__)))
sys.path.insert(0, os.path.join(HERE, 'tests'))
import make_blocks as files  # noqa: E402

KINDS = ['logic', 'set M', 'store', 'masked store', 'deliver', 'resolve', 'set a mode register']
SOURCES = ['memory', 'M', 'X', 'Y', 'outside, the next item of in.itm']
CHOICES = ['X', 'Y', 'both X and Y', 'X where Y is 1', 'X where the old Y is 1, and Y everywhere']


def named(names, number):
    return names[number] if number < len(names) else 'there is no such one'


def counted(number, what):
    """So many of something: 1 item, 2 items."""
    return '%d %s%s' % (number, what, '' if number == 1 else 's')


def such(i):
    """An instruction of this kind, in a sentence."""
    return 'kind 6' if i[0] == files.SET_MODE else 'a ' + KINDS[i[0]]


def source(i):
    if i[0] in (5, 6):
        return 'none' if i[1] == 0 else '%s; %s has none: it must be 0' % (named(SOURCES, i[1]), such(i))
    return named(SOURCES, i[1]) + ('; %s takes none from there: it must be 1 to 4' % such(i) if i[0] in (2, 3) and i[1] == 0 else '')


def mode(number):
    return {0: 'a slice, one bit of every word', 255: 'one word'}.get(number, 'a shape between slice and word')


def flip(i):
    if i[5] == 0:
        return 'none'
    return 'line I goes to I xor %d' % i[5] + ('; %s may not flip: it must be 0' % such(i) if i[0] in (5, 6) else '')


def shift(i):
    """What byte 6 says, 16p + m, and the first rule that it breaks in this kind."""
    p, m = divmod(i[6], 16)
    if i[6] == 0:
        return 'none'
    if i[0] in (2, 3, 5, 6):
        rule = '%s may not shift: it must be 0' % such(i)
    elif p > 8:
        rule = 'p is over 8, and a group has at most 256 lines'
    elif m >= p:
        rule = 'm is not below p'
    else:
        rule = 'by %d modulo %d' % (2 ** m, 2 ** p)
    return 'p is %d and m is %d; %s' % (p, m, rule)


def idle(value, why):
    """A byte that this instruction has no use for."""
    return 'of no use%s%s' % (why, ': it must be 0' if value else '')


def logic(i):
    if i[0] != 0:
        return idle(i[7], ' in this kind')
    becomes = ''.join(str(i[7] >> k & 1) for k in range(4))
    return 'choice %d: %s; function %d: old and passed bit 00, 01, 10, 11 become %s' % (
        i[7] // 16, named(CHOICES, i[7] // 16), i[7] % 16, ', '.join(becomes))


def setting(i):
    """What tag, mode and address say where a mode register is set."""
    if i[2] in files.MODE_REGISTERS:
        tag, shape = 'register %s' % files.MODE_REGISTERS[i[2]], mode(i[3])
    else:
        names = {0: 'no register is named', 1: 'it names no register'}
        tag, shape = names.get(i[2], 'there is no such tag') + '; kind 6 needs 2, for A, or 3, for B', 'not looked at without a register'
    return [tag, shape, idle(i[4], ' in this kind')]


def access(i, modes):
    """What tag, mode and address say; `modes` has, by its tag, the mode of each register that is set before the instruction."""
    if i[0] == files.SET_MODE:
        return setting(i)
    if not files.touches(i):
        return [idle(value, ', for memory is not touched') for value in i[2:5]]
    if i[2] in files.MODE_REGISTERS:
        name = 'register %s' % files.MODE_REGISTERS[i[2]]
        if i[2] in modes:
            tag, shape = 'the mode of %s, which is set' % name, 'that of %s, %d: %s' % (name, modes[i[2]], mode(modes[i[2]]))
        else:
            tag, shape = 'the mode of %s, which is not set' % name, 'that of %s: nobody gave one' % name
        return [tag, shape if i[3] == 0 else idle(i[3], ', for it is that of %s' % name), '%d' % i[4]]
    if i[2] != 1:
        tag = 'no mode is given' if i[2] == 0 else 'there is no such tag'
        return [tag + '; this instruction touches memory and needs one'] + 2 * ['not looked at without the tag']
    return ['a mode is given', mode(i[3]), '%d' % i[4]]


def meanings(i, modes):
    """What each byte of an instruction says."""
    tag, shape, address = access(i, modes)
    return [
        'kind: ' + named(KINDS, i[0]),
        'source: ' + source(i),
        'mode tag: ' + tag,
        'mode: ' + shape,
        'address: ' + address,
        'flip: ' + flip(i),
        'shift: ' + shift(i),
        'logic: ' + logic(i),
    ]


def show_modes(steps, place, kind, start):
    """What sets the mode registers before the instruction at the place: an instruction, or the picture, which is of that kind and has those in
    `start` set; and which instruction comes too late."""
    for tag, name in files.MODE_REGISTERS.items():
        setters = [k for k, i in enumerate(steps) if i[0] == files.SET_MODE and i[2] == tag]
        before, after = [k for k in setters if k < place], [k for k in setters if k > place]
        if before:
            print('Mode register %s is set before it, to %d by instruction %d.' % (name, steps[before[-1]][3], before[-1]))
        elif tag in start:
            print('Mode register %s is set before it, to %d by before.pic.' % (name, start[tag]))
        else:
            print('Mode register %s is not set before it: before.pic, of kind %d, has %s%s.' % (
                name, kind, 'it unset' if kind == files.MODES_PICTURE else 'none', '; instruction %d sets it, and comes after' % after[0] if after else ''))


def show_instruction(folder, number, place, byte):
    data = files.content(files.LIST, contents(os.path.join(folder, 'run.lst')), 'run.lst')
    steps = [data[at:at + 8] for at in range(0, len(data), 8)]
    i = steps[place]
    by_register = files.touches(i) and i[2] in files.MODE_REGISTERS
    start = {}
    if by_register:
        picture = contents(os.path.join(folder, 'before.pic'))
        files.content(files.taken(picture), picture, 'before.pic')
        start = files.set_by(files.modes_in(picture))
    modes = {**start, **{j[2]: j[3] for j in steps[:place] if j[0] == files.SET_MODE}}
    lacks = {12: 'The list takes %s.' % counted(sum(j[1] == 4 for j in steps), 'item'),
             13: 'The list gives %s.' % counted(sum(j[0] in (4, 5) for j in steps), 'item')}
    print('Instruction %d, counted from 0, at byte %d of the list: %s' % (place, 8 * place, i.hex(' ')))
    for k, text in enumerate(meanings(i, modes)):
        print('  byte %d  %02x  %s%s' % (k, i[k], text, '   <-- here' if k == byte and number not in lacks else ''))
    if number in lacks:
        print('No byte of it is wrong. ' + lacks[number])
    if by_register:
        show_modes(steps, place, files.taken(picture), start)


def show_block(name, data, kinds, place):
    """The head of a block. `kinds` are those that it may be of: the first is the one that the file was taken for."""
    block = data[512 * place:512 * place + 512]
    kind = kinds[0]

    def pair(at):
        return block[at] + 256 * block[at + 1]
    print('Block %d, counted from 0, at byte %d of %s, which has %s:' % (place, 512 * place, name, counted(len(data) // 512, 'block')))
    count, right = len(data) // 512, files.sums(block[:508])
    rows = [('kind', pair(0), pair(0) == kind, 'it must be ' + ', or '.join('%d, %s' % (k, files.NAMES[k]) for k in kinds)),
            ('number', pair(2), pair(2) == place, 'it must be %d, its place' % place),
            ('blocks', pair(4), pair(4) == count, 'it must be %d, for so many are there' % count),
            ('used', pair(6), files.used_fits(pair(6), place, count), 'of 496 bytes of payload; 496 in every block but the last'),
            ('s1', pair(508), block[508:510] == right[:2], 'the sum of its bytes is %d' % (right[0] + 256 * right[1])),
            ('s2', pair(510), block[510:] == right[2:], 'the weighted sum of its bytes is %d' % (right[2] + 256 * right[3]))]
    strays = files.strays(block) if files.used_fits(pair(6), place, count) else []
    rows += [('byte %d' % k, block[k], False, 'it must be 0: %s' % ('it has no use' if k < 12 else 'it is payload behind what is used')) for k in strays[:1]]
    for name, found, fits, text in rows:
        print('  %-8s %5d  %s%s' % (name, found, text, '' if fits else '   <-- here'))


def show_registers(name, data, number):
    """The mode registers of a picture of kind 4, and what is wrong with them by 15, or which is set, by 28."""
    modes = files.modes_in(data)
    if len(modes) != 4:
        raise files.Refused('%s is another by now' % name)
    faults = files.modes_faults(modes)
    print('The mode registers of %s, bytes 364 to 367 of block 16, its last: %s' % (name, modes.hex(' ')))
    for k, value in enumerate(modes):
        flag, here = modes[k - k % 2], bool(faults[k])
        if faults[k]:
            text = 'it must be 0, or 1 for set' if k % 2 == 0 else 'it must be 0: the flag says that there is none'
        elif k % 2 == 0:
            text, here = 'set' if value else 'not set', number == 28 and value == 1
        else:
            text = mode(value) if flag == 1 else 'none' if flag == 0 else 'not looked at with such a flag'
        print('  %s of %s  %02x  %s%s' % ('mode' if k % 2 else 'flag', 'AB'[k // 2], value, text, '   <-- here' if here else ''))


def show_size(path, kind, number):
    name = os.path.basename(path)
    if not os.path.isfile(path):
        print('%s is %s.' % (name, 'no file' if os.path.lexists(path) else 'not there'))
        return
    size = os.path.getsize(path)
    print('%s has %s, %s.' % (name, counted(size, 'byte'), 'which is no multiple of 512' if size % 512 else counted(size // 512, 'block')))
    if number == 25:
        print('Every block is good, but %s.' % files.size_fault(kind, len(files.payload(contents(path)))))


def contents(path, most=-1):
    """The bytes of a file, or so many of them at most. What is no plain file, as a pipe, was read by the program and is not read again."""
    if os.path.exists(path) and not os.path.isfile(path):
        raise files.Refused('%s is no plain file, and is not read again' % os.path.basename(path))
    with open(path, 'rb') as file:
        return file.read(most)


def show_file(path, kinds, number, place):
    """What a file is refused for as one of the first of these kinds."""
    name = os.path.basename(path)
    if 21 <= number <= 24:
        show_block(name, contents(path), kinds, place)
    elif number in (15, 28):
        show_registers(name, contents(path), number)
    else:
        show_size(path, kinds[0], number)


def show_folder(folder, letter, number, place, byte):
    path = os.path.join(folder, {'p': 'before.pic', 'i': 'in.itm'}.get(letter, 'run.lst'))
    if letter == 'r' and number in (1, 2, 3, 4, 15):
        print('No instruction is wrong: it is of what the run is lent.')
    elif letter == 'r':
        show_instruction(folder, number, place, byte)
    elif letter != 'p':
        show_file(path, [files.LIST if letter == 'l' else files.ITEMS], number, place)
    else:
        # before.pic may be of either kind; its first two bytes, 4 and 0 or not, say which it is taken for
        kind = files.taken(contents(path, 2)) if os.path.isfile(path) else files.PICTURE
        show_file(path, [kind] if kind == files.MODES_PICTURE or place else [kind, files.MODES_PICTURE], number, place)


def show_converted(path, way, number, place):
    """What a file is refused for that was to be made a picture of the new kind, or of the old one."""
    kind, made = (files.PICTURE, files.MODES_PICTURE) if way == 'new' else (files.MODES_PICTURE, files.PICTURE)
    show_file(path, [kind], number, place)
    if number == 22 and files.file_fault(made, contents(path)) == (0, 0):
        print('It is a good picture of kind %d as it stands: there is nothing to convert.' % made)


def main(words):
    if len(words) == 4 and words[1] in ('new', 'old'):
        show_converted(words[0], words[1], int(words[2]), int(words[3]))
    elif len(words) == 5:
        show_folder(words[0], words[1], *(int(word) for word in words[2:]))
    else:
        sys.exit(__doc__)


if __name__ == '__main__':
    sys.stdout.reconfigure(errors='surrogateescape')  # a file may have any bytes for its name
    try:
        main(sys.argv[1:])
    except files.Refused as refused:
        sys.exit('why: %s' % refused)
    except OSError as error:
        sys.exit('why: %s: %s' % (error.filename or 'standard output', error.strerror))
