#!/usr/bin/env python3
"""Draws the figures of docs/figures from the machine's rules and from crates.txt.

    tools/figures.py            writes them
    tools/figures.py --check    says which of them is not what is drawn here, and writes nothing

reach.svg   which bits of the memory a mode reaches, all 256 words of 256 bits
modes.svg   the same rule on 8 words of 8 bits, with the line that meets each bit, and the chip that holds it
pass.svg    where a flip and a shift move 8 lines
crates.svg  which crate stands on which
"""
import os
import sys

HERE = os.path.dirname(os.path.dirname(os.path.realpath(__file__)))
FOLDER = os.path.join(HERE, 'docs', 'figures')
FONT = 'font-family="DejaVu Sans, Verdana, sans-serif"'
INK, FAINT, FILL, MARK = '#222222', '#c8c8c8', '#d7e6f5', '#b03020'


# ---- the rules, as document 01 has them under Memory and Network

def met(mode, address, line):
    """The word and the bit that a line meets. Scramble: line P meets chip G xor P. Local address: chip C is read at G xor (M and C).
    Storage: location B of chip C holds bit B of word B xor C."""
    chip = address ^ line
    location = address ^ (mode & chip)
    return location ^ chip, location


def moved(line, flip, p, m):
    """Where a pass takes a line: the flip to I xor F, then the shift keeps I div 2^p and moves the rest to (rest + 2^m) mod 2^p."""
    line ^= flip
    return line if p == 0 else line - line % 2 ** p + (line % 2 ** p + 2 ** m) % 2 ** p


# ---- drawing

def text(x, y, words, size=12, anchor='start', colour=INK, weight='normal'):
    words = words.replace('&', '&amp;').replace('<', '&lt;')
    return '<text x="%g" y="%g" font-size="%g" text-anchor="%s" fill="%s" font-weight="%s">%s</text>' % (x, y, size, anchor, colour, weight, words)


def box(x, y, width, height, fill='none', stroke=INK, line=1, round_=0):
    return '<rect x="%g" y="%g" width="%g" height="%g" rx="%g" fill="%s" stroke="%s" stroke-width="%g"/>' % (
        x, y, width, height, round_, fill, stroke, line)


def figure(width, height, title, parts):
    head = '<svg xmlns="http://www.w3.org/2000/svg" width="%d" height="%d" viewBox="0 0 %d %d" %s>' % (width, height, width, height, FONT)
    note = '<!-- Drawn by tools/figures.py: change that, and draw again. -->'
    return '\n'.join([head, note, '<title>%s</title>' % title, '<rect width="%d" height="%d" fill="#ffffff"/>' % (width, height)] + parts + ['</svg>', ''])


def shade(share):
    """From blue at 0 to red at 1."""
    return '#%02x%02x%02x' % (int(30 + 190 * share), int(90 - 40 * share), int(200 - 160 * share))


# ---- the reach of a mode, at its true size

REACH = [(0, 13, 'mode 0, address 13', 'a slice: bit 13 of every word'), (7, 45, 'mode 7, address 45', '8 neighbouring bits of every 8th word'),
         (240, 45, 'mode 240, address 45', 'every 16th bit of 16 neighbouring words'), (255, 13, 'mode 255, address 13', 'a word: all bits of word 13')]


def reach():
    parts, side, gap = [], 256, 44
    for n, (mode, address, title, says) in enumerate(REACH):
        x, y = gap + n * (side + gap), 74
        parts += [text(x, 30, title, 14, weight='bold'), text(x, 48, says, 11.5), box(x - 0.5, y - 0.5, side + 1, side + 1, '#fafafa', FAINT)]
        for line in range(256):
            word, bit = met(mode, address, line)
            parts.append('<rect x="%d" y="%d" width="1" height="1" fill="%s"/>' % (x + bit, y + word, shade(line / 255)))
        parts += [text(x, y - 6, 'bit 0', 10), text(x + side, y - 6, '255', 10, 'end'), text(x - 6, y + 9, '0', 10, 'end'),
                  text(x - 6, y + side, '255', 10, 'end')]
        word, bit = met(mode, address, 83)
        right = bit < 150
        parts += ['<circle cx="%g" cy="%g" r="5" fill="none" stroke="%s"/>' % (x + bit + 0.5, y + word + 0.5, INK),
                  text(x + bit + (9 if right else -9), y + word + (30 if mode == 240 else 16), 'line 83: bit %d of word %d' % (bit, word), 10.5, 'start' if right else 'end')]
    parts.append(text(12, 74 + 128, 'word', 10, 'start'))
    foot = 74 + side + 28
    parts.append(text(gap, foot, 'Each panel is the whole memory: words downward, bits to the right. An instruction reaches 256 bits, one on each line:', 12))
    for k in range(64):
        parts.append('<rect x="%g" y="%g" width="3" height="10" fill="%s"/>' % (gap + 760 + 3 * k, foot - 10, shade(k / 63)))
    parts += [text(gap + 756, foot, 'line 0', 11, 'end'), text(gap + 760 + 196, foot, 'line 255', 11)]
    return figure(4 * (side + gap) + gap, foot + 18, 'Which bits a mode reaches', parts)


# ---- the same rule on 8 words of 8 bits

def grid(x, y, cell, numbers, marked):
    """A table of 8 words by 8 bits; marked says which cells are filled."""
    parts = []
    for word in range(8):
        for bit in range(8):
            filled = marked(word, bit)
            parts.append(box(x + cell * bit, y + cell * word, cell, cell, FILL if filled else '#ffffff', FAINT))
            if (word, bit) in numbers:
                parts.append(text(x + cell * (bit + 0.5), y + cell * (word + 0.5) + 4, '%d' % numbers[word, bit], 11, 'middle',
                                  INK, 'bold' if filled else 'normal'))
    for k in range(8):
        parts += [text(x + cell * (k + 0.5), y - 4, '%d' % k, 9, 'middle', '#777777'), text(x - 5, y + cell * (k + 0.5) + 3, '%d' % k, 9, 'end', '#777777')]
    return parts


def modes():
    parts, cell, gap, address = [], 22, 44, 5
    side = 8 * cell
    names = {0: 'mode 0: a slice', 7: 'mode 7: a word'}
    for mode in range(8):
        x, y = gap + mode % 4 * (side + gap), 64 + mode // 4 * (side + 64)
        lines = {met(mode, address, line): line for line in range(8)}
        parts += [text(x, y - 22, names.get(mode, 'mode %d' % mode), 13, weight='bold')] + grid(x, y, cell, lines, lambda w, b, lines=lines: (w, b) in lines)
    x, y = gap, 64 + 2 * (side + 64)
    chips = {(location ^ chip, location): chip for chip in range(8) for location in range(8)}
    parts += [text(x, y - 22, 'the chip that holds each bit', 13, weight='bold')] + grid(x, y, cell, chips, lambda w, b: False)
    notes = ['The same rule with three digits for eight: 8 words downward, 8 bits to the right, address %d.' % address,
             'A filled bit is reached, and its number is the line that meets it.',
             'Digit k of the mode decides for digit k alone: where it is 0 the line counts words and the',
             'address names the bit; where it is 1 the line counts bits and the address names the word.',
             'Location b of chip c holds bit b of word b xor c. So the eight bits of a row, of a column and',
             'of every shape between lie in eight different chips, one bit each: any of them is had at once.']
    parts += [text(gap + side + gap, y + 30 + 22 * k, note, 13) for k, note in enumerate(notes)]
    return figure(4 * (side + gap) + gap, y + side + 24, 'Slice, word and the modes between, on 8 words of 8 bits', parts)


# ---- a pass on 8 lines

PASSES = [(0, 3, 0, 'shift by 1 modulo 8'), (0, 2, 0, 'shift by 1 modulo 4'), (5, 0, 0, 'flip 5'), (5, 2, 0, 'flip 5, then 1 modulo 4')]


def passes():
    parts, gap, wide, step = [], 60, 130, 22
    for n, (flip, p, m, title) in enumerate(PASSES):
        x, y = gap + n * (wide + 90), 62
        parts.append(text(x - 10, 28, title, 13, weight='bold'))
        for line in range(8):
            to = moved(line, flip, p, m)
            parts += [text(x - 8, y + step * line + 4, '%d' % line, 11, 'end'), text(x + wide + 8, y + step * line + 4, '%d' % line, 11),
                      '<path d="M%g %g C%g %g %g %g %g %g" fill="none" stroke="%s" stroke-width="1.5"/>' % (
                          x, y + step * line, x + wide / 2, y + step * line, x + wide / 2, y + step * to, x + wide, y + step * to, shade(line / 7))]
    parts.append(text(gap - 10, 62 + 8 * step + 16, 'Lines 0 to 7, from where they come (left) to where they go (right); the other 248 do the same eight by eight.', 12))
    return figure(gap + 4 * (wide + 90), 62 + 8 * step + 34, 'Where a pass moves lines', parts)


# ---- the crates

def crates():
    """What each crate of crates.txt stands on, and whether it is a program."""
    on = {}
    with open(os.path.join(HERE, 'crates.txt'), encoding='utf-8') as file:
        for line in file:
            name, colon, rest = line.split('#')[0].partition(':')
            if colon:
                on[name.strip()] = rest.split()
    deps = {name: [d for d in rest if d in on] for name, rest in on.items()}
    programs = {name for name in on if os.path.exists(os.path.join(HERE, 'crates', name, 'src', 'main.rt'))}
    return deps, programs


def below(deps, name):
    """Everything that a crate stands on, by any way."""
    return set(deps[name]).union(*[below(deps, d) for d in deps[name]])


def direct(deps, name):
    """What a crate stands on and reaches by no other way."""
    return sorted(d for d in deps[name] if not any(d in below(deps, e) for e in deps[name]))


def layers(deps):
    """The rows of the map from the bottom, and the ways of its lines. A crate stands just over the highest that it stands on; a line that leads past a
    row has a place there, as a crate has; each place comes over the middle of what it leads to, then under the middle of what leads to it, then between."""
    height = {}

    def high(name):
        if name not in height:
            height[name] = 1 + max([high(d) for d in deps[name]], default=-1)
        return height[name]
    rows = [[] for _ in range(1 + max(high(name) for name in sorted(deps)))]
    for name in sorted(deps):
        rows[height[name]].append(name)
    ways, down, up = [], {}, {}
    for name in sorted(deps):
        for d in direct(deps, name):
            way = [name] + ['%s to %s at %d' % (name, d, k) for k in range(height[name] - 1, height[d], -1)] + [d]
            ways.append(way)
            for k, point in enumerate(way[1:-1]):
                rows[height[name] - 1 - k].append(point)
            for one, other in zip(way, way[1:]):
                down.setdefault(one, []).append(other)
                up.setdefault(other, []).append(one)
    both = {point: down.get(point, []) + up.get(point, []) for row in rows for point in row if point in down or point in up}
    for turn in range(24):
        for row in rows if turn % 2 == 0 else reversed(rows):
            at = {point: (k + 0.5) / len(r) for r in rows for k, point in enumerate(r)}
            joined = both if turn > 15 else down if turn % 2 == 0 else up
            row.sort(key=lambda point: (sum(at[j] for j in joined[point]) / len(joined[point]) if point in joined else at[point], point))
    return rows, ways


def crate_map():
    deps, programs = crates()
    rows, ways = layers(deps)
    width, high, gap = 1000, 30, 42
    place, parts = {}, []
    for k, row in enumerate(rows):
        for n, point in enumerate(row):
            place[point] = (width * (n + 0.5) / len(row), 40 + (len(rows) - 1 - k) * (high + gap))
    for way in ways:
        path = 'M%g %g' % place[way[0]]
        for one, other in zip(way, way[1:]):
            (x1, y1), (x2, y2) = place[one], place[other]
            path += ' L%g %g C%g %g %g %g %g %g L%g %g' % (x1, y1 + high / 2, x1, y1 + high / 2 + 24, x2, y2 - high / 2 - 24, x2, y2 - high / 2, x2, y2)
        parts.append('<path d="%s" fill="none" stroke="#8a8a8a"/>' % path)
    for name in sorted(deps):
        x, y = place[name]
        wide = 20 + 8 * len(name)
        parts += [box(x - wide / 2, y - high / 2, wide, high, '#f3dcc8' if name in programs else FILL, INK, 1, 15 if name in programs else 3),
                  text(x, y + 4.5, name, 13, 'middle')]
    foot = 40 + len(rows) * (high + gap) - 20
    parts += [box(20, foot - 14, 30, 18, FILL, INK, 1, 3), text(58, foot, 'a library', 12), box(150, foot - 14, 30, 18, '#f3dcc8', INK, 1, 9),
              text(188, foot, 'a program', 12), text(300, foot, 'A line leads down to what a crate stands on; what it also reaches through another is left out.', 12)]
    return figure(width, foot + 16, 'Which crate stands on which', parts)


FIGURES = {'reach.svg': reach, 'modes.svg': modes, 'pass.svg': passes, 'crates.svg': crate_map}


def main(words):
    if words not in ([], ['--check']):
        sys.exit(__doc__)
    wrong = []
    os.makedirs(FOLDER, exist_ok=True)
    for name, draw in FIGURES.items():
        path = os.path.join(FOLDER, name)
        if words:
            if not os.path.exists(path) or open(path, encoding='utf-8').read() != draw():
                wrong.append(name)
        else:
            with open(path, 'w', encoding='utf-8') as file:
                file.write(draw())
    if wrong:
        sys.exit('docs/figures: not what tools/figures.py draws: %s' % ', '.join(wrong))


if __name__ == '__main__':
    main(sys.argv[1:])
