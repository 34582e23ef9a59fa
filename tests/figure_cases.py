#!/usr/bin/env python3
"""Holds the rules that tools/figures.py draws by to what the program does: each reach is stored by ./staran, and each pass delivered. The last line is
'N passed, M failed'.

    tests/figure_cases.py
"""
import os
import subprocess
import sys
import tempfile

HERE = os.path.dirname(os.path.dirname(os.path.realpath(__file__)))
sys.path[:0] = [os.path.join(HERE, 'tools'), os.path.join(HERE, 'tests')]
import figures  # noqa: E402
import make_blocks as files  # noqa: E402

COUNTS = [0, 0]


def judge(name, holds):
    COUNTS[0 if holds else 1] += 1
    print('%s %s' % ('ok  ' if holds else 'FAIL', name))


def item(bit):
    """The item whose bit k is bit(k)."""
    return bytes(sum(bit(8 * i + j) << j for j in range(8)) for i in range(32))


def bit_of(data, k):
    return data[k // 8] >> (k % 8) & 1


def folder(room, name, steps, items):
    """A folder whose memory is all zero."""
    path = os.path.join(room, name)
    os.mkdir(path)
    for file, data in (('before.pic', files.picture([bytes(32)] * 256)), ('run.lst', files.blocks(files.LIST, steps)),
                       ('in.itm', files.blocks(files.ITEMS, items))):
        files.write(os.path.join(path, file), data)
    return path


# What a store of all ones reaches, and with items of the lines' digits, which line meets each bit.
PATTERNS = [lambda line: 1] + [lambda line, k=k: line >> k & 1 for k in range(8)]


def main():
    with tempfile.TemporaryDirectory() as room:
        stores = {}
        for mode, address, title, _ in figures.REACH:
            for n, pattern in enumerate(PATTERNS):
                step = bytes([2, 4, 1, mode, address, 0, 0, 0])
                stores[title, n] = folder(room, '%d-%d' % (mode, n), step, item(pattern))
        passed = b''.join(bytes([4, 4, 0, 0, 0, flip, 16 * p + m if p else 0, 0]) * 8 for flip, p, m, _ in figures.PASSES)
        digits = b''.join(item(PATTERNS[1 + k]) for k in range(8)) * len(figures.PASSES)
        through = folder(room, 'pass', passed, digits)
        done = subprocess.run([os.path.join(HERE, 'staran'), *stores.values(), through], stdout=subprocess.PIPE, stderr=subprocess.PIPE, check=False)
        judge('every folder is done', done.returncode == 0)
        for mode, address, title, _ in figures.REACH:
            places = {figures.met(mode, address, line): line for line in range(256)}
            right = len(places) == 256
            for n, pattern in enumerate(PATTERNS):
                words = files.words_of(os.path.join(stores[title, n], 'after.pic'))
                wanted = {place for place, line in places.items() if pattern(line)}
                right = right and wanted == {(w, b) for w in range(256) for b in range(256) if bit_of(words[w], b)}
            judge('%s: the bits that are drawn, and no others, each by its line' % title, right)
        items = [bytes.fromhex(line) for line in done.stdout.decode().splitlines() if len(line) == 64]
        for n, (flip, p, m, title) in enumerate(figures.PASSES):
            right = len(items) == 8 * len(figures.PASSES) and all(
                bit_of(items[8 * n + k], figures.moved(line, flip, p, m)) == line >> k & 1 for k in range(8) for line in range(256))
            judge('%s: each line goes where it is drawn' % title, right)
    print('%d passed, %d failed' % tuple(COUNTS))
    return COUNTS[1] != 0


if __name__ == '__main__':
    sys.exit(main())
