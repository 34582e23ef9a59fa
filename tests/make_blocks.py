#!/usr/bin/env python3
"""Makes and reads the files of a folder that ./staran runs in. Written from document 01, "Blocks on disk", "Instructions" and "Sum and
difference lists", from document 02, Six to Eight, and from the bytes in docs/LISTS.md, and from nothing of the crates, so that it can serve
as an outside answer.

    make_blocks.py list FILE HEX..       a list: HEX is any number of hex digits and blanks, in one word or several; a mode register counts as
                                         set at its start if it is set in the before.pic beside FILE
    make_blocks.py items FILE HEX..      items, likewise
    make_blocks.py picture FILE [HEX]    a picture whose words, M, X and Y are all 0: of kind 1, or, with four bytes of HEX, flag and mode of
                                         mode register A and of B, of kind 4
    make_blocks.py example FOLDER        before.pic and run.lst of the example that document 01 prints
    make_blocks.py demo FOLDER           before.pic, run.lst and in.itm of the demonstration
    make_blocks.py heights FOLDER        the stations of before.pic and after.pic: every word that is not all zero, with a star behind
                                         those that are marked in after.pic's Y

Options: --replace   a picture that is there may be overwritten
         --unfit     content is written that the program will refuse
         --signed    heights are signed numbers
"""
import os
import sys

PICTURE, LIST, ITEMS, MODES_PICTURE = 1, 2, 3, 4
NAMES = {PICTURE: 'picture', LIST: 'list', ITEMS: 'items', MODES_PICTURE: 'picture with mode registers'}
PICTURE_BYTES = {PICTURE: 8288, MODES_PICTURE: 8292}  # 256 words, then M, X and Y, then, in the second, the mode registers
SET_MODE = 6
MODE_REGISTERS = {2: 'A', 3: 'B'}  # by the tag that names each


class Refused(Exception):
    """What the program would not take, in a sentence."""


def two(n):
    """Two bytes, low first."""
    return bytes([n % 256, n // 256])


def sums(front):
    """s1 and s2 of the 508 bytes in front of them."""
    s1 = sum(front) % 65535
    s2 = sum((508 - i) * b for i, b in enumerate(front)) % 65535
    return two(s1) + two(s2)


def blocks(kind, content):
    """The blocks of a content; an empty one has one block that uses 0."""
    parts = [content[at:at + 496] for at in range(0, len(content), 496)] or [b'']
    out = b''
    for number, part in enumerate(parts):
        front = two(kind) + two(number) + two(len(parts)) + two(len(part)) + bytes(4) + part + bytes(496 - len(part))
        out += front + sums(front)
    return out


def used_fits(used, number, count):
    """May a block at its place use so many bytes of payload?"""
    return used == 496 if number < count - 1 else used <= 496 and (used > 0 or count == 1)


def strays(block):
    """The bytes of a block, by their numbers, that must be 0 and are not: the four behind its head, and the payload behind what is used."""
    used = block[6] + 256 * block[7]
    return [k for k in [*range(8, 12), *range(12 + used, 508)] if block[k]]


def block_fault(kind, block, number, count):
    """The first of 21 to 24 that a block at its place meets, or 0."""
    if block[508:] != sums(block[:508]):
        return 21
    if block[:2] != two(kind):
        return 22
    if block[2:6] != two(number) + two(count):
        return 23
    if not used_fits(block[6] + 256 * block[7], number, count) or strays(block):
        return 24
    return 0


def size_fault(kind, size):
    """Why no content of that kind has that many bytes, or nothing."""
    if kind in PICTURE_BYTES:
        return '' if size == PICTURE_BYTES[kind] else 'a picture of kind %d has %d bytes, and not %d' % (kind, PICTURE_BYTES[kind], size)
    unit = 8 if kind == LIST else 32
    if size % unit:
        return '%s are whole %s of %d bytes, and %d bytes are not' % (
            'lists' if kind == LIST else 'items', 'instructions' if kind == LIST else 'items', unit, size)
    if size > 16 * 496:
        return 'the program takes at most %d %s in a file, and not %d' % (
            16 * 496 // unit, 'instructions' if kind == LIST else 'items', size // unit)
    return ''


def cut(data):
    """The blocks of a file."""
    return [data[at:at + 512] for at in range(0, len(data), 512)]


def payload(data):
    """What the blocks of a file say that they use, put together."""
    return b''.join(block[12:12 + block[6] + 256 * block[7]] for block in cut(data))


def file_fault(kind, data):
    """The number that the bytes of a file are refused with as that kind, and its place; or 0 and 0."""
    if not data or len(data) % 512 or len(data) > 34304:
        return 20, 0
    count = len(data) // 512
    for number, block in enumerate(cut(data)):
        fault = block_fault(kind, block, number, count)
        if fault:
            return fault, number
    if size_fault(kind, len(payload(data))):
        return 25, 0
    if kind == MODES_PICTURE and any(modes_faults(payload(data)[8288:])):
        return 15, 0
    return 0, 0


def content(kind, data, name='the file'):
    """The content of a file of blocks; Refused says what is wrong with it."""
    fault, place = file_fault(kind, data)
    if fault == 20:
        raise Refused('%s: %d bytes are no file of 1 to 67 blocks of 512 (20)' % (name, len(data)))
    if fault == 25:
        raise Refused('%s: %s (25)' % (name, size_fault(kind, len(payload(data)))))
    if fault == 15:
        raise Refused('%s: its mode registers are %s, refused with 15' % (name, payload(data)[8288:].hex(' ')))
    if fault:
        raise Refused('%s: block %d is refused with %d, see docs/NUMBERS.md' % (name, place, fault))
    return payload(data)


def modes_faults(modes):
    """What is wrong with each of the four bytes of the mode registers, or nothing: flag and mode of A, flag and mode of B."""
    faults = []
    for flag, mode in (modes[:2], modes[2:]):
        faults += ['a flag is 0 or 1' if flag > 1 else '', 'behind flag 0 the mode is 0' if flag == 0 and mode else '']
    return faults


def taken(data):
    """The kind of picture that the program takes a file for, by its first two bytes as they stand."""
    return MODES_PICTURE if data[:2] == two(MODES_PICTURE) else PICTURE


def modes_in(data):
    """The four bytes of the mode registers with which a run on this picture starts."""
    return payload(data)[8288:] if taken(data) == MODES_PICTURE else bytes(4)


def set_by(modes):
    """By its tag, the mode of each mode register that is set."""
    return {tag: modes[2 * k + 1] for k, tag in enumerate(MODE_REGISTERS) if modes[2 * k] == 1}


def touches(i):
    """Whether an instruction touches memory."""
    return i[0] in (2, 3) or (i[0] in (0, 1, 4) and i[1] == 0)


def instruction_fault(i, is_set=()):
    """The number that an instruction is refused with, and the first byte that is wrong by it; or 0 and 0. `is_set` has the tags of the mode
    registers that are set before it."""
    p, m = divmod(i[6], 16)
    sets, by_register = i[0] == SET_MODE, touches(i) and i[2] in MODE_REGISTERS
    rows = [
        (5, 0, i[0] > 6),
        (6, 1, i[1] > 4 or (i[0] in (2, 3) and i[1] == 0) or (i[0] in (5, 6) and i[1] != 0)),
        (7, 2, (touches(i) or sets) and i[2] == 0),
        (8, 2, ((touches(i) or sets) and i[2] > 3) or (sets and i[2] == 1)),
        (9, 2, not touches(i) and not sets and i[2] != 0),
        (9, 3, (by_register or not (touches(i) or sets)) and i[3] != 0),
        (9, 4, not touches(i) and i[4] != 0),
        (14, 2, by_register and i[2] not in is_set),
        (18, 5, i[0] in (5, 6) and i[5] != 0),
        (18, 6, i[0] in (2, 3, 5, 6) and i[6] != 0),
        (16, 6, p > 8),
        (17, 6, i[6] != 0 and m >= p),
        (11, 7, i[7] // 16 > 4 if i[0] == 0 else i[7] != 0),
    ]
    return next(((number, byte) for number, byte, met in rows if met), (0, 0))


def list_fault(data, is_set=()):
    """Why the program would refuse a run of this list, whatever its items are, or nothing. `is_set` has the tags of the mode registers that are
    set at its start."""
    given, is_set = 0, set(is_set)
    for place in range(len(data) // 8):
        i = data[8 * place:8 * place + 8]
        fault, byte = instruction_fault(i, is_set)
        if fault:
            return 'instruction %d, %s, would be refused with %d at byte %d: ./staran numbers %d' % (place, i.hex(' '), fault, byte, fault)
        if i[0] == SET_MODE:
            is_set.add(i[2])
        given += i[0] in (4, 5)
        if given > 256:
            return 'instruction %d would be refused with 13: the program has room for 256 items' % place
    return ''


def digits(words):
    """The bytes of hex digits."""
    text = ''.join(''.join(words).split())
    strange = [c for c in text if c not in '0123456789abcdefABCDEF']
    if strange:
        raise Refused('%r is no hex digit' % strange[0])
    if len(text) % 2:
        raise Refused('%d hex digits are no whole bytes' % len(text))
    return bytes.fromhex(text)


def picture(words, registers=bytes(96), modes=None):
    """A picture: 256 words of 32 bytes in plain order, then M, X and Y; with the four bytes of the mode registers, if any, one of kind 4."""
    if modes is None:
        return blocks(PICTURE, b''.join(words) + registers)
    return blocks(MODES_PICTURE, b''.join(words) + registers + bytes(modes))


def sum_list(a, b, s, width):
    """The sum list of three fields."""
    out = [bytes([0, 2, 0, 0, 0, 0, 0, 0x20])]
    for k in range(width):
        out += [bytes([0, 0, 1, 0, a + k, 0, 0, 0x46]),
                bytes([0, 0, 1, 0, b + k, 0, 0, 0x46]),
                bytes([2, 3, 1, 0, s + k, 0, 0, 0]),
                bytes([0, 2, 0, 0, 0, 0, 0, 0x33]),
                bytes([0, 2, 0, 0, 0, 0, 0, 0x26])]
    return b''.join(out)


def difference_list(a, b, s, width):
    """The difference list of three fields: a sum list that starts with Y at 1, and takes the other bit of B."""
    out = sum_list(a, b, s, width)
    steps = [out[at:at + 8] for at in range(0, len(out), 8)]
    steps[2::5] = [step[:7] + bytes([0x49]) for step in steps[2::5]]
    return b''.join(steps[:1] + [bytes([0, 2, 0, 0, 0, 0, 0, 0x1F])] + steps[1:])


def search_list(less, start, width):
    """The list that marks in Y the words whose field is equal to a number, or less than it; the number is in the items."""
    out = [bytes([0, 2, 0, 0, 0, 0, 0, 0x00 if less else 0x0F])]
    for k in range(width):
        out += [bytes([0, 4, 0, 0, 0, 0, 0, 0x1A]),
                bytes([0, 0, 1, 0, start + k, 0, 0, 0x16]),
                bytes([0, 0, 1, 0, start + k, 0, 0, 0x35]) if less else bytes([0, 2, 0, 0, 0, 0, 0, 0x30])]
    return b''.join(out + [bytes([0, 2, 0, 0, 0, 0, 0, 0x1A])])


def search_items(number, width):
    """The items of a search: bit k of the number on every line of item k."""
    return b''.join(bytes([255 * (number >> k & 1)]) * 32 for k in range(width))


def greatest_list(start, width):
    """The list that keeps marked, of the words marked in Y, those whose field is the greatest."""
    out = [bytes([0, 2, 0, 0, 0, 0, 0, 0])]
    for k in reversed(range(width)):
        out += [bytes([0, 0, 1, 0, start + k, 0, 0, 0x3A])]
        out += [bytes([0, 2, 0, 0, 0, 2 ** e, 0, 0x0E]) for e in range(8)]
        out += [bytes([0, 0, 1, 0, start + k, 0, 0, 0x04]),
                bytes([0, 2, 0, 0, 0, 0, 0, 0x24])]
    return b''.join(out)


# ---- the demonstration: field A (bits 0 to 31) a height, B (32 to 63) the datum shift, S (64 to 95) their sum, in millimetres

STATIONS = 20
SHIFT = 47


def station(height, shift, total):
    """A word of three fields. Bit k of a word is bit k mod 8 of its byte k div 8, so a field's lowest byte comes first."""
    return b''.join(field.to_bytes(4, 'little') for field in (height, shift, total)) + bytes(20)


def read_picture(path):
    """The content of a picture file, of the kind that its first two bytes name."""
    with open(path, 'rb') as file:
        data = file.read()
    return content(taken(data), data, path)


def words_of(path):
    """The 256 words of a picture file."""
    plain = read_picture(path)
    return [plain[32 * w:32 * w + 32] for w in range(256)]


def marks_of(path):
    """Y of a picture file: the numbers of the words that are marked there."""
    y = read_picture(path)[8192 + 64:8192 + 96]
    return {w for w in range(256) if y[w // 8] >> w % 8 & 1}


def heights(folder, signed):
    """The table of the stations before and, where there is an after.pic, after: a star behind those that are marked in its Y."""
    pictures, marks = [words_of(os.path.join(folder, 'before.pic'))], set()
    after = os.path.join(folder, 'after.pic')
    if os.path.exists(after):
        pictures.append(words_of(after))
        marks = marks_of(after)
    heads = ['%20s %11s %11s' % (name + ' height', 'shift', 'sum') for name in ('before:', 'after:')]
    print('word' + ''.join(heads[:len(pictures)]))
    for w in range(256):
        if any(any(words[w]) for words in pictures):
            fields = [[int.from_bytes(words[w][f:f + 4], 'little', signed=signed) for f in (0, 4, 8)] for words in pictures]
            print('%4d' % w + ''.join('%20d %11d %11d' % tuple(row) for row in fields) + (' *' if w in marks else ''))
    if marks:
        print('* marked in Y')


# ---- the command

def write(path, data, replace=True):
    if not replace and os.path.exists(path):
        raise Refused('%s is there, and a picture is not overwritten without --replace' % path)
    with open(path, 'wb') as file:
        file.write(data)


def set_beside(path):
    """The tags of the mode registers that are set in the before.pic beside a file; none where there is no such picture."""
    beside = os.path.join(os.path.dirname(path), 'before.pic')
    try:
        if not os.path.isfile(beside):
            return ()
        with open(beside, 'rb') as file:
            data = file.read(34305)
    except OSError:
        return ()
    return () if file_fault(taken(data), data) != (0, 0) else set_by(modes_in(data))


def write_hex(kind, path, words, unfit):
    data = digits(words)
    fault = size_fault(kind, len(data)) or (list_fault(data, set_beside(path)) if kind == LIST else '')
    if fault and not unfit:
        raise Refused('%s; --unfit writes it all the same' % fault)
    write(path, blocks(kind, data))


def write_blank(path, words, unfit, replace):
    """A picture whose words, M, X and Y are all 0."""
    modes = digits(words) if words else None
    if modes is not None and len(modes) != 4:
        raise Refused('the mode registers are four bytes, and not %d' % len(modes))
    if modes is not None and any(modes_faults(modes)) and not unfit:
        raise Refused('the mode registers %s would be refused with 15: ./staran numbers 15; --unfit writes them all the same' % modes.hex(' '))
    write(path, picture([bytes(32)] * 256, modes=modes), replace)


def main(words):
    options = {word for word in words if word in ('--replace', '--unfit', '--signed')}
    words = [word for word in words if word not in options]
    if len(words) < 2 or (words[0] not in ('list', 'items', 'picture') and len(words) > 2):
        sys.exit(__doc__)
    what, path = words[:2]
    replace = '--replace' in options

    def beside(name):
        return os.path.join(path, name)
    if what in ('list', 'items'):
        write_hex(LIST if what == 'list' else ITEMS, path, words[2:], '--unfit' in options)
    elif what == 'picture':
        write_blank(path, words[2:], '--unfit' in options, replace)
    elif what == 'example':
        write(beside('before.pic'), picture([bytes(32)] * 256), replace)
        write(beside('run.lst'), blocks(LIST, bytes.fromhex('000200000000001F 0500000000000000')))
    elif what == 'demo':
        stations = [station(100000 + 1000 * w, SHIFT, 0) if w < STATIONS else bytes(32) for w in range(256)]
        write(beside('before.pic'), picture(stations), replace)
        # the sum; then word 13 is stored from outside (mode 255, address 13), and delivered
        steps = sum_list(0, 32, 64, 32) + bytes([2, 4, 1, 255, 13, 0, 0, 0]) + bytes([4, 0, 1, 255, 13, 0, 0, 0])
        # every word is marked in Y; those with the greatest sum stay marked; Y is delivered, and what the resolver says of it
        steps += bytes([0, 2, 0, 0, 0, 0, 0, 0x1F]) + greatest_list(64, 32) + bytes([4, 3, 0, 0, 0, 0, 0, 0]) + bytes([5, 0, 0, 0, 0, 0, 0, 0])
        write(beside('run.lst'), blocks(LIST, steps))
        write(beside('in.itm'), blocks(ITEMS, station(250000, 0, 250000)))
    elif what == 'heights':
        heights(path, '--signed' in options)
    else:
        sys.exit(__doc__)


if __name__ == '__main__':
    try:
        main(sys.argv[1:])
    except Refused as refused:
        sys.exit('make_blocks.py: %s' % refused)
    except OSError as error:
        sys.exit('make_blocks.py: %s: %s' % (error.filename or 'standard output', error.strerror))
