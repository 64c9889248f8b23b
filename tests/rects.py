#!/usr/bin/env python3
"""Makes crates/rect_test/stdin: rectangle calls with what must come out.

usage: tests/rects.py RECT.TXT > crates/rect_test/stdin

RECT.TXT has the published Rust's answers, one case to a line, `rect W H HS VS OUTPUT STORED GROUP GX GY => ok X Y W H`
or `=> panic`, with `m m` for the shifts of a meta channel. A panic is our refusal 14, and so are the four zeros that
the Rust gives for an empty LF on HF. After them comes a walk over every pair of kinds 0 to 3 with group dimensions that
are allowed and one that is not, small and large channels, and shifts up to, at and past the largest, and one over
strips; its answers are those of `expected`, the papers' rule written here a second time. Each case is fourteen numbers
of four bytes, least byte first: the nine of the call (meta is 255 255), the answer, x, y, width, height.
"""
import itertools
import struct
import sys

NONE, LF, HF = 0, 1, 2
META = 255
MAX_SIDE = 1_048_575


def expected(w, h, hs, vs, output, stored, group, gx, gy):
    """Document 01, questions 4 and 13 and "Tiles"; document 02, A.8: a side above the limit."""
    meta = (hs, vs) == (META, META)
    if max(w, h) > MAX_SIDE or not meta and max(hs, vs) > 30:
        return (4, 0, 0, 0, 0)
    if group not in (128, 256, 512, 1024):
        return (14, 0, 0, 0, 0)
    if (output, stored) == (NONE, NONE):
        return (0, 0, 0, w, h)
    if (output, stored) not in ((LF, NONE), (LF, LF), (HF, NONE), (HF, LF), (HF, HF)) or meta:
        return (14, 0, 0, 0, 0)
    tile = [(8 * group if output == LF else group) >> shift for shift in (hs, vs)]
    start = [position * side for position, side in zip((gx, gy), tile)]
    size = [min(max(side - at, 0), most) for side, at, most in zip((w, h), start, tile)]
    if 0 in size:
        return (0, 0, 0, 0, 0)
    if output == stored:
        start = [0, 0]
    elif stored == LF:
        start = [at % (8 * group >> shift) for at, shift in zip(start, (hs, vs))]
    return (0, *start, *size)


def published(line):
    """A case of the Rust's, with our answer to it."""
    call, answer = line.split('=>')
    case = tuple(META if word == 'm' else int(word) for word in call.split()[1:])
    words = answer.split()
    if words == ['panic'] or (case[4:6] == (LF, HF) and words == ['ok', '0', '0', '0', '0']):
        return case, (14, 0, 0, 0, 0)
    return case, (0, *map(int, words[1:]))


SHIFTS = [(0, 0), (1, 3), (7, 10), (10, 13), (30, 30), (30, 31), (31, 0), (META, META), (META, 0)]
# width, height, gx, gy
PLACES = [(0, 1, 0, 0), (1, 0, 0, 0), (1, 1, 0, 0), (2, 1, 0, 0), (2, 2, 1, 1), (257, 129, 1, 1), (3000, 200, 9, 0),
          (65535, 65535, 7, 7), (65535, 65535, 7, 63), (65535, 65535, 65535, 65535)]
STRIPS = [(65536, 1, 63, 0), (1, 65536, 0, 511), (1048575, 16, 127, 0), (1048575, 1048575, 8191, 8191),
          (1048575, 1048575, 65535, 7), (1048576, 1, 0, 0), (1, 1048576, 0, 0), (4294967295, 4294967295, 0, 0)]


def walk(groups, shifts, places):
    for output, stored, group, both in itertools.product(range(4), range(4), groups, shifts):
        for w, h, gx, gy in places:
            yield (w, h, *both, output, stored, group, gx, gy)


for line in open(sys.argv[1]):
    case, answer = published(line)
    if answer != expected(*case):
        sys.exit(f'the Rust and document 01 differ: {line.strip()}, {expected(*case)}')
    sys.stdout.buffer.write(struct.pack('<14I', *case, *answer))
every = walk((128, 256, 512, 1024, 100), SHIFTS, PLACES)
strips = walk((128, 1024), [(0, 0), (1, 3), (31, 0), (META, META)], STRIPS)
for case in itertools.chain(every, strips):
    sys.stdout.buffer.write(struct.pack('<14I', *case, *expected(*case)))
