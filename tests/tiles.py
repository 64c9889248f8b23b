#!/usr/bin/env python3
"""Makes crates/tile_test/stdin: tile calls, each with the answer and the output that document 01 asks for, and the mark
of document 02, A.3.

usage: tests/tiles.py TILE.TXT > crates/tile_test/stdin 2> crates/tile_test/stdout

TILE.TXT has the published Rust's answers, one case to a line, `tile h|v AW AH RW RH NEXT PREV OW OH | averages |
residuals | next line | previous line => ok SAMPLES`. What else is expected is computed here, index by index, by the
line of rules.py, from document 01's words and the standard's formulas; the published answers are held against that
rule first.

The stream has for each kind of KINDS the number of its cases and the cases. A case is the number of its bytes, a head,
the samples of averages, residuals, next line and previous line, and, where the answer is 0, those of the output. The
head: the answer, the direction, six sides (width and height of average, residual, output), the five slices' lengths
and the mark, 1 or 0. A number has four bytes, a side eight, a sample four, least byte first. What the program must
write goes to standard error.
"""
import itertools
import random
import struct
import sys

from rules import HIGHEST, LOWEST, MAX_SAMPLES, MAX_SHORT_SIDE, MAX_SIDE, line, line_marked, squeezed

KINDS = {kind: [] for kind in
         ['published', 'table', 'sizes', 'ends', 'limits', 'areas', 'misfits', 'lengths', 'order', 'cuts', 'marks', 'outputs']}
dice = random.Random()


class Squeeze:
    """Lines of averages and residuals, whatever the direction, with outer lines or none."""

    def __init__(self, horizontal, avg, res, m, n, following, before):
        self.horizontal, self.avg, self.res, self.m, self.n = horizontal, avg, res, m, n
        self.following, self.before = following, before

    def lines(self):
        return [(a, r, self.following[k:k + 1], self.before[k:k + 1]) for k, (a, r) in enumerate(zip(self.avg, self.res))]

    def output(self):
        return [line(*given) for given in self.lines()]

    def marked(self):
        return any(line_marked(*given) for given in self.lines())


# Cases.

def sides(horizontal, along, across):
    return (along, across) if horizontal else (across, along)


def flat(horizontal, lines, size):
    if horizontal:
        return [x for samples in lines for x in samples]
    return [samples[i] for i in range(size) for samples in lines]


def direction(horizontal):
    """Any number but 0 means horizontal."""
    return dice.choice([1, 1, 2, 0x100, 0x8000_0000, 0xFFFF_FFFF]) if horizontal else 0


def samples(count, least=-2**31, most=2**31 - 1):
    return [least + dice.getrandbits(40) % (most - least + 1) for _ in range(count)]


def case(kind, answer, horizontal, six, inputs, room, expected=(), mark=False):
    body = [x for part in inputs for x in part] + list(expected)
    head = struct.pack('<II6Q6I', answer, direction(horizontal), *six, *map(len, inputs), room, mark)
    KINDS[kind].append(head + struct.pack(f'<{len(body)}i', *body))


def accepted(kind, s, output):
    h, lines, size = s.horizontal, len(s.avg), s.m + s.n
    expected = flat(h, output, size)
    case(kind, 0, h, sides(h, s.m, lines) + sides(h, s.n, lines) + sides(h, size, lines),
         [flat(h, s.avg, s.m), flat(h, s.res, s.n), s.following, s.before], len(expected), expected, s.marked())


def refused(kind, answer, horizontal, six, lengths):
    avg, res, following, before, room = lengths
    case(kind, answer, horizontal, six, [samples(n) for n in (avg, res, following, before)], room)


def fitting(horizontal, m, n, across):
    return sides(horizontal, m, across) + sides(horizontal, n, across) + sides(horizontal, m + n, across)


def replaced(six, k, side):
    """The sides with those of rectangle k (average, residual, output) replaced."""
    return [*six[:2 * k], *side, *six[2 * k + 2:]]


def exact(six, following=0, before=0):
    """The slices' lengths that question 14 asks for."""
    return [six[0] * six[1], six[2] * six[3], following, before, six[4] * six[5]]


# What the published Rust answered.

def published(path):
    for text in open(path):
        call, answer = text.split('=>')
        if not answer.startswith(' ok'):
            continue
        words, *slices = [part.split() for part in call.split('|')]
        avg, res, following, before = [[int(word) for word in part] for part in slices]
        expected = [int(word) for word in answer.split()[1:]]
        h = words[1] == 'h'
        aw, ah, rw, rh, _, _, ow, oh = map(int, words[2:])
        m, lines = sides(h, aw, ah)
        n = sides(h, rw, rh)[0]
        apart = lambda flat, size: [[flat[k * size + i if h else i * lines + k] for i in range(size)]
                                    for k in range(lines)]
        s = Squeeze(h, apart(avg, m), apart(res, n), m, n, following, before)
        if flat(h, s.output(), m + n) != expected:
            sys.exit(f'the rule and the published answer differ: {text}')
        case('published', 0, h, (aw, ah, rw, rh, ow, oh), [avg, res, following, before], len(expected), expected, s.marked())


# Document 01's "Proved table", both ways.

def table():
    rows = [
        ([10, 4], [1, 0], [], [], [11, 9, 4, 4]),
        ([10, 4], [1], [], [], [11, 9, 4]),
        ([7], [-1], [7], [7], [7, 8]),
        ([2147483647], [2], [], [], [-2147483648, 2147483646]),
    ]
    for h in (True, False):
        for avg, res, following, before, expected in rows:
            accepted('table', Squeeze(h, [avg], [res], len(avg), len(res), following, before), [expected])


# Sizes around the block of eight, with each choice of outer lines.

def squeeze(horizontal, size, across, following, before, small):
    take = lambda count: samples(count, -99, 99) if small else samples(count)
    n, m = size // 2, size - size // 2
    return Squeeze(horizontal, [take(m) for _ in range(across)], [take(n) for _ in range(across)], m, n,
                   take(across) if following else [], take(across) if before else [])


def sizes():
    alongs, acrosses = [0, 1, 2, 7, 8, 9, 15, 16, 17], [0, 1, 2, 7, 8, 9, 16, 17]
    for h in (True, False):
        for i, j in itertools.product(range(len(alongs)), range(len(acrosses))):
            pairs = [(False, False), (True, True)] if (i + j + h) % 2 else [(True, False), (False, True)]
            for k, (following, before) in enumerate(pairs):
                s = squeeze(h, alongs[i], acrosses[j], following, before, (i + k) % 2 == 0)
                accepted('sizes', s, s.output())


# The lines' ends, each line in one piece by the rule: no pair, one, two, and around the eight pairs that a part has, with a tail and without, beside
# every choice of outer lines. One line is taken singly; of nine, eight go through the block. Samples over the full range, and at its very ends.

EDGES = [-2**31, -2**31 + 1, -1, 0, 1, 2**31 - 2, 2**31 - 1]


def ends():
    for h, pairs, tail, across in itertools.product((True, False), (0, 1, 2, 7, 8, 9, 16, 17), (0, 1), (1, 9)):
        for following, before in itertools.product((False, True), repeat=2):
            s = squeeze(h, 2 * pairs + tail, across, following, before, False)
            if (pairs + tail + following + before) % 2:
                s.avg = [[dice.choice(EDGES) for _ in line] for line in s.avg]
                s.res = [[dice.choice(EDGES) for _ in line] for line in s.res]
            accepted('ends', s, s.output())


# At the limits of questions 5 and 12, on either side.

def limits():
    for h in (True, False):
        half = MAX_SIDE // 2
        for m, n, across in [(half + 1, half, 0), (0, 0, MAX_SIDE), (0, 0, MAX_SHORT_SIDE), (0, 0, MAX_SHORT_SIDE + 1)]:
            accepted('limits', Squeeze(h, [[]] * across, [[]] * across, m, n, [], []), [[]] * across)
        for m, across in [(half + 1, 0), (half + 1, 1), (0, MAX_SIDE + 1)]:
            refused('limits', 13, h, fitting(h, m, m, across), [0, 0, 0, 0, 0])
        refused('limits', 13, h, fitting(h, 1, 0, MAX_SIDE + 1), [0, 0, 0, 0, 0])
        long = [(MAX_SIDE + 1, 0), (MAX_SIDE + 1, 1), (MAX_SAMPLES, 1), (16, MAX_SIDE + 1), (2**32 - 1, 0), (2**64 - 1, 0)]
        for k, side in itertools.product(range(3), long):
            for turned in (side, side[::-1]):
                refused('limits', 13, h, replaced(fitting(h, 0, 0, 0), k, turned), [0, 0, 0, 0, 0])
        for m, across in [(2048, 4096), (4096, 2048), (32767, 256)]:
            for lengths in ([0, 0, 0, 0, 0], [5, 4, 0, 0, 9]):
                refused('limits', 12, h, fitting(h, m, m, across), lengths)
        refused('limits', 12, h, fitting(h, half + 1, half, 1), [0, 0, 0, 1, 0])
        for across in (MAX_SHORT_SIDE, MAX_SHORT_SIDE + 1, MAX_SIDE):
            refused('limits', 12, h, fitting(h, 1, 0, across), [1, 0, 0, 0, 1])


# Question 5, each rectangle: just above the limit, products that do not fit 64 bits, some of which wrap to a small one.

TOO_LARGE = [(MAX_SAMPLES + 1, 1), (4096, 4097), (65535, 257), (MAX_SIDE, 17), (2**16, 2**16), (2**32, 2**32), (2**33, 2**31), (2**63, 2),
             (2**64 - 1, 2**64 - 1), (2**64 - 1, 1), (2**62 + 1, 4), (2**32 + 1, 2**32), (2**40, 2**20)]


def areas():
    for h in (True, False):
        for k, side in itertools.product(range(3), TOO_LARGE):
            for turned in (side, side[::-1]):
                refused('areas', 5, h, replaced(fitting(h, 1, 1, 1), k, turned), [1, 1, 0, 0, 2])
        for m, n, across in [(2049, 2048, 4096), (2048, 2048, 4097), (32768, 32767, 257)]:
            refused('areas', 5, h, fitting(h, m, n, across), [3, 2, 0, 0, 5])


# Question 12.

def misfitting(horizontal):
    """Sides of which those along the squeeze, those across it, or the direction does not fit."""
    for m, n, size in [(4, 2, 6), (2, 3, 5), (2, 0, 2), (0, 1, 1), (3, 2, 4), (3, 2, 6), (3, 3, 5), (3, 3, 7)]:
        yield sides(horizontal, m, 4) + sides(horizontal, n, 4) + sides(horizontal, size, 4)
    for a, r, o in [(4, 3, 4), (4, 5, 4), (4, 4, 3), (4, 4, 5), (3, 4, 4), (5, 4, 4), (4, 0, 4), (0, 4, 4), (4, 4, 0)]:
        yield sides(horizontal, 3, a) + sides(horizontal, 2, r) + sides(horizontal, 5, o)
    yield fitting(not horizontal, 3, 2, 4)
    yield fitting(not horizontal, 2, 2, 3)


def wrapping(horizontal):
    """Sides that would fit if their sums wrapped at 64 bits."""
    for m, n, size in [(2**63, 2**63, 0), (0, 2**64 - 1, 2**64 - 1), (2**64 - 1, 2**64 - 1, 2**64 - 2)]:
        yield sides(horizontal, m, 0) + sides(horizontal, n, 0) + sides(horizontal, size, 0)


def misfits():
    for h in (True, False):
        for six in itertools.chain(misfitting(h), wrapping(h)):
            refused('misfits', 13, h, six, exact(six))
        for m, n, across in [(3, 2, 4), (2, 2, 9), (1, 0, 2), (3, 2, 0), (0, 0, 3), (1, 1, 1)]:
            six = fitting(h, m, n, across)
            for wrong in sorted({1, across - 1, across + 1, 2 * across, m + n} - {-1, 0, across}):
                for following, before in [(wrong, 0), (0, wrong), (wrong, across), (across, wrong), (wrong, wrong)]:
                    refused('misfits', 13, h, six, exact(six, following, before))


# Question 14: each slice one short, one long, empty and twice as long.

def lengths_off(six, following, before):
    right = exact(six, following, before)
    for k in (0, 1, 4):
        for wrong in sorted({right[k] - 1, right[k] + 1, 0, 2 * right[k]} - {-1, right[k]}):
            yield right[:k] + [wrong] + right[k + 1:]


def lengths():
    for h in (True, False):
        for m, n, across in [(3, 2, 4), (2, 2, 9), (1, 0, 2), (3, 2, 0), (0, 0, 3), (1, 1, 1), (0, 0, 0)]:
            six = fitting(h, m, n, across)
            for following, before in [(0, 0), (across, across)]:
                for wrong in lengths_off(six, following, before):
                    refused('lengths', 12, h, six, wrong)
        avg, res, following, before, room = exact(fitting(h, 3, 2, 4))
        refused('lengths', 12, h, fitting(h, 3, 2, 4), [res, avg, following, before, room])


# Several questions at once: the first "no" is the refusal.

def order():
    for h in (True, False):
        large = fitting(h, 2049, 2048, 4096)
        for following, before in [(1, 0), (0, 1), (5, 3)]:
            refused('order', 5, h, large, [3, 2, following, before, 5])
        for k, side in itertools.product(range(3), [(4096, 4097), (2**32, 2**32)]):
            for six in [fitting(h, 3, 2, 4), sides(h, 4, 4) + sides(h, 2, 4) + sides(h, 6, 4), fitting(not h, 3, 2, 4)]:
                for following in (0, 4, 5):
                    refused('order', 5, h, replaced(six, k, side), exact(six, following))
        for six in misfitting(h):
            for wrong in itertools.islice(lengths_off(six, 0, 4), 0, None, 3):
                refused('order', 13, h, six, wrong)
        for following, before in [(1, 0), (0, 5), (4, 3)]:
            for wrong in lengths_off(fitting(h, 3, 2, 4), following, before):
                refused('order', 13, h, fitting(h, 3, 2, 4), wrong)


# The uncut squeeze and its cuts: each tile's output is its part of the uncut output.

def bounds(cuts, end):
    marks = [0, *sorted(cuts), end]
    return list(zip(marks, marks[1:]))


def tiles(s, strips, ends):
    """The tile calls of a squeeze that is cut across at `strips`, and along after `ends` averages, strip by strip."""
    out, marked = s.output(), False
    accepted('cuts', s, out)
    for (top, bottom), cuts in zip(bounds(strips, len(s.avg)), ends):
        avg, res, strip = s.avg[top:bottom], s.res[top:bottom], out[top:bottom]
        for start, end in bounds(cuts, s.m):
            last = end == s.m
            following = s.following[top:bottom] if last else [a[end] for a in avg]
            before = [o[2 * start - 1] for o in strip] if start > 0 else s.before[top:bottom]
            stop = s.n if last else end
            tile = Squeeze(s.horizontal, [a[start:end] for a in avg], [r[start:stop] for r in res], end - start,
                           stop - start, following, before)
            accepted('cuts', tile, [o[2 * start:s.m + s.n if last else 2 * end] for o in strip])
            marked |= tile.marked()
    assert marked == s.marked()


def cuts():
    for h in (True, False):
        paper = Squeeze(h, [[10, 4]], [[1, 0]], 2, 2, [], [])
        assert paper.output() == [[11, 9, 4, 4]]
        tiles(paper, [], [[1]])
        for k in range(24):
            size, across = 2 + dice.getrandbits(16) % 33, 1 + dice.getrandbits(16) % 20
            s = squeeze(h, size, across, k & 1, k & 2, k & 4 or k > 11)
            if k > 11:
                put(s, dice.getrandbits(16) % (size + 2), dice.getrandbits(16) % across, HIGHEST + 1)
            places = lambda end, share: [p for p in range(1, end) if dice.getrandbits(16) % share == 0]
            strips = places(across, 6) + ([across] if k == 5 else [])
            ends = [places(s.m, 3) for _ in range(len(strips) + 1)]
            if size % 2:
                ends[0] = sorted({*ends[0], s.m - 1})
            tiles(s, strips, ends)


# Marks: one sample at an end of the plain range or one past it, in each place that a call may read, beside small ones.
# The lines take turns, so that each lane of a block is met.

SIZES_OF_EIGHTS = [0, 1, 2, 3, 7, 8, 9, 16, 17]


def put(s, place, k, sample):
    """The sample over one of line k: of its averages, then of its residuals, or of the next or the previous line."""
    if place < s.m:
        s.avg[k][place] = sample
        s.res[k][place:place + 1] = [0] * (place < s.n)
    elif place < s.m + s.n:
        s.res[k][place - s.m] = sample
    elif place == s.m + s.n and s.following:
        s.following[k] = sample
    elif place > s.m + s.n and s.before:
        s.before[k] = sample


def is_read(s, place):
    return place < s.m + s.n or s.n > 0 and (place > s.m + s.n or s.m == s.n)


def marks():
    turn = itertools.count()
    for h, across in itertools.product((True, False), (1, 9)):
        for size in range(18) if across == 1 else SIZES_OF_EIGHTS:
            for place, past in itertools.product(range(size + 2), (0, 1)):
                s = squeeze(h, size, across, True, True, True)
                put(s, place, next(turn) // 2 % across, dice.choice([LOWEST - past, HIGHEST + past]))
                assert s.marked() == (past == 1 and is_read(s, place))
                accepted('marks', s, s.output())


# The same for each sample of the output, beside others near that end.

def outputs():
    turn = itertools.count()
    for h, across in itertools.product((True, False), (1, 9)):
        for size in range(1, 18) if across == 1 else SIZES_OF_EIGHTS:
            for place, past in itertools.product(range(size), (0, 1)):
                end, inward = dice.choice([(LOWEST, 1), (HIGHEST, -1)])
                out = [[end + inward * x for x in samples(size, 1, 99)] for _ in range(across)]
                out[next(turn) // 2 % across][place] = end - inward * past
                avg, res = zip(*map(squeezed, out))
                s = Squeeze(h, avg, res, size - size // 2, size // 2, [], [])
                assert s.output() == out and s.marked() == (past == 1)
                accepted('outputs', s, out)


dice.seed(0)
published(sys.argv[1])
for make in (table, sizes, ends, limits, areas, misfits, lengths, order, cuts, marks, outputs):
    dice.seed(make.__name__)
    make()
for kind, cases in KINDS.items():
    sys.stdout.buffer.write(struct.pack('<I', len(cases)))
    for text in cases:
        sys.stdout.buffer.write(struct.pack('<I', len(text)) + text)
    print(kind, len(cases), 'right', len(cases), file=sys.stderr)
