#!/usr/bin/env python3
"""Makes crates/pair_test/stdin: pairs about the ends of the plain range, and pairs taken out of the published Rust's
answers to tile calls, each with its mark (document 02, A.3).

usage: tests/pairs.py TILE.TXT > crates/pair_test/stdin 2> crates/pair_test/stdout

TILE.TXT has one case to a line, `tile h|v AW AH RW RH NEXT PREV OW OH | averages | residuals | next line |
previous line => ok SAMPLES`. Along each line of a tile, pair i has the average a[i], the residual r[i], the next
average (a[i + 1], at the end the neighbour line or a[i] itself), the previous output (out[2i - 1], at the start the
line before or a[0]) and two outputs. Each pair becomes seven numbers of four bytes, least byte first: average,
residual, next average, previous output, first, second, and 1 where one of these is outside the range, else 0. A
published pair is kept once. The others come in eights, for the lanes of a block. What the program must write goes to
standard error.
"""
import random
import struct
import sys

import rules
from rules import HIGHEST, LOWEST, half, outside, tendency, wrap

dice = random.Random(0)


# Pairs with one sample at an end of the range or one past it.

def inside():
    return LOWEST + dice.getrandbits(40) % (HIGHEST - LOWEST + 1)


def pair_of(place, sample):
    """A pair with this sample there, its two beside an average at most one apart."""
    x = [inside() for _ in range(6)]
    x[place] = sample
    if place == 0:
        x[1] = wrap(dice.choice([-1, 0, 1]) - tendency(x[3], x[0], x[2]))
    if place > 3:
        x[0] = wrap(x[4] - half(wrap(x[4] - x[5])))
        x[1] = wrap(x[4] - x[5] - tendency(x[3], x[0], x[2]))
    return rules.pairs(x[:1], x[1:2], x[2:3], x[3:4])[0]


def alone(place, sample):
    """A pair of which no other sample is outside; beside an average, that lies between its two, one of these is."""
    company = 1 if place == 0 and outside([sample]) else 0
    while True:
        pair = pair_of(place, sample)
        if pair[place] == sample and sum(outside([x]) for k, x in enumerate(pair) if k != place) == company:
            return pair


def marks():
    for sample in (LOWEST, HIGHEST, LOWEST - 1, HIGHEST + 1):
        for place in range(6):
            for lane in range(8):
                yield from (alone(place, sample) if k == lane else alone(1, inside()) for k in range(8))


# Pairs of the published answers.

def lines_of(samples, w, h, horizontal):
    rows = [samples[y * w:(y + 1) * w] for y in range(h)]
    return rows if horizontal else [list(column) for column in zip(*rows)]


def pairs(text):
    call, answer = text.split('=>')
    if not answer.split() or answer.split()[0] != 'ok':
        return
    head, averages, residuals, following, before = [part.split() for part in call.split('|')]
    horizontal = head[1] == 'h'
    aw, ah, rw, rh, _, _, ow, oh = map(int, head[2:])
    numbers = lambda words: [int(word) for word in words]
    avg = lines_of(numbers(averages), aw, ah, horizontal)
    res = lines_of(numbers(residuals), rw, rh, horizontal)
    out = lines_of(numbers(answer.split()[1:]), ow, oh, horizontal)
    for k, (a, r, o) in enumerate(zip(avg, res, out)):
        for i in range(len(r)):
            end = int(following[k]) if following else a[i]
            start = int(before[k]) if before else a[0]
            yield (a[i], r[i], a[i + 1] if i + 1 < len(a) else end, o[2 * i - 1] if i else start, o[2 * i], o[2 * i + 1])


seen = {}
for text in open(sys.argv[1]):
    if text.startswith('tile '):
        for pair in pairs(text):
            seen.setdefault(pair)
cases = [*marks(), *seen]
for pair in cases:
    sys.stdout.buffer.write(struct.pack('<6iI', *pair, outside(pair)))
for kind, count in (('pairs', len(cases)), ('blocks', len(cases) // 8)):
    print(kind, count, 'right', count, file=sys.stderr)
