#!/usr/bin/env python3
"""Makes crates/run_test/stdin: whole records with a picture and its pyramid and the run's mark, or with their refusal.

usage: tests/runs.py VECTORS > crates/run_test/stdin 2> crates/run_test/stdout

VECTORS is a directory of NAME.record, NAME.pyramid and NAME.picture, samples of four bytes, least byte first. What is
expected is computed here, channel by channel and line by line, by document 01's rules (rules.py) and its "Whole runs",
the mark by document 02, A.3; the vectors are held against that first, both ways. What the program must write goes to
standard error.

The stream has for each kind of KINDS the number of its cases and the cases. A case is the number of its bytes, a head,
the record, the samples of the slice that is read and, where the answer is 0, as many that are expected. The head: the
answer, the record's length in bytes, the lengths in samples of the slices that are read, filled and for work, and the
mark, 1 or 0. A number has four bytes, least byte first. Where the answer is 0 the samples that are read are the
pyramid, and those expected the picture.
"""
import glob
import itertools
import random
import struct
import sys

from records import LONG, ORDER, PRINTED, REFUSALS, STRIP_REFUSALS, VERSION_REFUSALS
from rules import (HIGHEST, LOWEST, META, VERSION_2, Refused, channel, field, layouts, line, line_marked, meaning, meta, part,
                   squeezed, step, step_origins, strip, total, wrap)

KINDS = {kind: [] for kind in ['vectors', 'sizes', 'plans', 'metas', 'limits', 'refusals', 'order', 'cuts', 'strips', 'versions', 'marks']}
dice = random.Random()


# Document 01, "Whole runs": lines and channels.

def lines_of(plane, c, horizontal):
    w, h = c[:2]
    rows = [plane[y * w:(y + 1) * w] for y in range(h)]
    return rows if horizontal else [[row[x] for row in rows] for x in range(w)]


def plane_of(lines, horizontal):
    return [x for group in (lines if horizontal else zip(*lines)) for x in group]


def halves(plane, c, horizontal):
    both = [squeezed(samples) for samples in lines_of(plane, c, horizontal)]
    return [plane_of(lines, horizontal) for lines in zip(*both)]


def joined(average, residual, c, horizontal):
    """The channel, and whether one of its lines is marked."""
    avg = lines_of(average, part(c, horizontal, False), horizontal)
    res = lines_of(residual, part(c, horizontal, True), horizontal)
    lines = [(a, r, [], []) for a, r in zip(avg, res)]
    return plane_of([line(*given) for given in lines], horizontal), any(line_marked(*given) for given in lines)


# Steps and plans. `channels` is the list before the step.

def forward(channels, planes, horizontal, inplace, first, number):
    end = first + number
    both = [halves(plane, c, horizontal) for plane, c in zip(planes[first:end], channels[first:end])]
    averages, residuals = [a for a, _ in both], [r for _, r in both]
    after = planes[end:]
    return planes[:first] + averages + (residuals + after if inplace else after + residuals)


def back(channels, planes, horizontal, inplace, first, number):
    end = first + number
    at = end if inplace else len(channels)
    residuals, others = planes[at:at + number], planes[end:at] + planes[at + number:]
    made = [joined(a, r, c, horizontal) for a, r, c in zip(planes[first:end], residuals, channels[first:end])]
    return planes[:first] + [plane for plane, _ in made] + others, any(marked for _, marked in made)


def planes_of(channels, samples):
    assert len(samples) == total(channels)
    ends = list(itertools.accumulate(c[0] * c[1] for c in channels))
    return [samples[a:b] for a, b in zip([0] + ends, ends)]


def flat(planes):
    return [x for plane in planes for x in plane]


def write(record, picture):
    _, channels, steps = meaning(record)
    planes = planes_of(channels, picture)
    for before, s in zip(layouts(channels, steps), steps):
        planes = forward(before, planes, *s)
    return flat(planes)


def rebuild(record, pyramid):
    """The picture, and whether one of the steps is marked."""
    _, channels, steps = meaning(record)
    lists = layouts(channels, steps)
    planes = planes_of(lists[-1], pyramid)
    marks = [False]
    for before, s in zip(lists[-2::-1], reversed(steps)):
        planes, marked = back(before, planes, *s)
        marks.append(marked)
    return flat(planes), any(marks)


def judge(record):
    """The answer to questions 1 to 11."""
    try:
        layouts(*meaning(record)[1:])
        return 0
    except Refused as refusal:
        return refusal.args[0]


# Samples: any, about the ends, within demand 2's domain, small, and a slope.

def below(count):
    return dice.getrandbits(64) % count


def between(least, most):
    return least + below(most - least + 1)


def pick(options):
    return options[below(len(options))]


ENDS = [-2**31, -2**31 + 1, -2**30, -1, 0, 1, 2**30, 2**31 - 2, 2**31 - 1]
SORTS = 5


def samples(count, sort=None):
    sort = below(SORTS) if sort is None else sort
    rise = pick([1, 3, 1000, 2**24])
    sample = [lambda i: between(-2**31, 2**31 - 1), lambda i: pick(ENDS), lambda i: between(-2**28, 2**28 - 1),
              lambda i: between(-9, 9), lambda i: wrap(i * rise + between(-rise, rise))][sort]
    return [sample(i) for i in range(count)]


# Cases.

def case(kind, answer, record, lengths, given, wanted=(), mark=False):
    assert len(given) == lengths[0]
    body = [*given, *wanted]
    head = struct.pack('<6I', answer, len(record), *lengths, mark)
    KINDS[kind].append(head + record + struct.pack(f'<{len(body)}i', *body))


def accepted(kind, record, pyramid, picture):
    made, mark = rebuild(record, pyramid)
    assert made == picture and write(record, picture) == pyramid, (kind, record)
    case(kind, 0, record, [len(pyramid)] * 3, pyramid, picture, mark)
    return mark


def refused(kind, number, record, lengths):
    case(kind, number, record, lengths, samples(lengths[0]))


def fitting(record):
    """Lengths that question 14 would take, as far as the record tells them and they are small."""
    try:
        n = total(meaning(record)[1])
    except Refused:
        n = 3
    return [n if n < 2**14 else 3] * 3


def run(kind, record, answer=None, sort=None):
    """A record with lengths that fit; `answer`, where it is given, is what the case is there to show."""
    number = judge(record)
    assert answer in (None, number), (kind, record, number)
    if number:
        return refused(kind, number, record, fitting(record))
    made = samples(total(meaning(record)[1]), sort)
    if below(2):
        accepted(kind, record, made, rebuild(record, made)[0])
    else:
        accepted(kind, record, write(record, made), made)


# Pictures and pyramids that libjxl agrees with.

def vectors(path):
    names = sorted(glob.glob(path + '/*.record'))
    if len(names) != 76:
        sys.exit(f'{len(names)} vectors in {path}')
    for name in names:
        record, pyramid, picture = (open(name[:-len('record')] + end, 'rb').read() for end in ('record', 'pyramid', 'picture'))
        pyramid, picture = ([x for x, in struct.iter_unpack('<i', stored)] for stored in (pyramid, picture))
        if judge(record) or rebuild(record, pyramid)[0] != picture or write(record, picture) != pyramid:
            sys.exit(f'the rule and the vector differ: {name}')
        accepted('vectors', record, pyramid, picture)


# One and two channels with sides 0 to 3: the default plan, and each single step on each range.

def sizes():
    sides = list(itertools.product(range(4), repeat=2))
    for count in (1, 2):
        ranges = [(first, number) for first in range(count) for number in range(1, count - first + 1)]
        for pictures in itertools.product(sides, repeat=count):
            record = b''.join(channel(w, h) for w, h in pictures)
            run('sizes', record, 0)
            for flags, (first, number) in itertools.product(range(4), ranges):
                empty = any(0 in side for side in pictures[first:first + number])
                run('sizes', record + field(flags, first, number), 9 if empty else 0)


# Plans of several steps, in place and not, on lists with meta channels and without.

SIDES = [1, 1, 2, 2, 3, 4, 5, 6, 7, 8, 9, 10, 15, 16, 17, 24]


def some_channels():
    while True:
        metas = pick([0, 0, 1, 2])
        shifts = [(META, META)] * metas + [(below(4), below(4)) for _ in range(between(1, 5))]
        channels = [(pick(SIDES), pick(SIDES), *both) for both in shifts]
        if below(6) == 0:
            k = below(len(channels))
            channels[k] = (*pick([(0, 3), (4, 0), (0, 0)]), *channels[k][2:])
        if total(channels) <= 400 and max(c[0] * c[1] for c in channels) > 0:
            return channels


def some_steps(channels):
    """Steps that are accepted one after the other, each with some range of the list as it then is."""
    steps, wished = [], between(1, 8)
    for _ in range(200):
        first = below(len(channels))
        s = (below(2), below(2), first, between(1, len(channels) - first))
        try:
            channels = step(channels, *s)
        except Refused:
            continue
        steps.append(s)
        if len(steps) == wished:
            break
    return steps


def plans():
    while len(KINDS['plans']) < 300:
        channels = some_channels()
        steps = some_steps(channels)
        if steps:
            record = b''.join(channel(*c) for c in channels) + b''.join(field(h + 2 * i, f, n) for h, i, f, n in steps)
            run('plans', record, 0, sort=len(KINDS['plans']) % SORTS)


# Meta channels before the others: the default plan, single steps on each range, and plans of several steps.

def metas():
    for m, n in itertools.product(range(1, 4), range(4)):
        record = meta(4, 3) * m + channel(9, 4) * n
        run('metas', record, 0 if n else 11)
        for flags, (first, number) in itertools.product(range(4), [(0, 1), (0, m), (m, n), (0, m + n), (m - 1, 2)]):
            run('metas', record + field(flags, first, number))
    for size in [(0, 0), (0, 5), (5, 0), (1, 1), (20, 1), (1, 20), (17, 9)]:
        for record in (meta(*size) + channel(9, 9), meta(2, 2) + meta(*size) + channel(5, 10) * 3):
            run('metas', record, 0)
            run('metas', record + field(3, 0, 1))
            run('metas', record + field(2, 0, 1) + field(3, 1, 1) + field(0, len(record) // 9, 1))
    run('metas', meta(7, 7) + channel(7, 7) + field(3, 0, 1) + field(2, 1, 1) + field(3, 0, 3) + field(1, 6, 1), 0)
    run('metas', meta(7, 7) * 2 + field(3, 0, 2) + field(2, 0, 4), 0)


# Steps, channels, shifts, the range's end and the samples of a list, at a limit and past it.

def limits():
    steps = lambda count, flags=0: b''.join(field(flags ^ k % 2, k, 1) for k in range(count))
    for count, answer in ((63, 0), (64, 0), (65, 3), (66, 3)):
        run('limits', channel(2, 3) * 66 + steps(count), answer)
        run('limits', meta(3, 1) + field(3, 0, 1) * count, answer)
        run('limits', meta(1, 2) * 2 + field(2, 1, 1) * count, answer)
    for count in (255, 256, 257, 258):
        run('limits', channel(1, 1) * count, 0 if count < 257 else 3)
        run('limits', meta(1, 1) * (count - 1) + channel(1, 1), 0 if count < 257 else 3)
        for flags in range(4):
            run('limits', channel(2, 2) * count + field(flags, 0, 1), 0 if count < 256 else 10 if count < 257 else 3)
    for count, answer in ((127, 0), (128, 0), (129, 10)):
        for flags in range(4):
            run('limits', channel(2, 1) * count + field(flags, 0, count), answer)
        run('limits', channel(2, 1) * count + field(1, count - 128 if count > 128 else 0, min(count, 128)), answer)
    run('limits', channel(9, 1) * 127, 0)
    run('limits', channel(9, 1) * 128, 10)
    run('limits', channel(9, 1) * 64 + field(3, 0, 64) + field(0, 0, 128), 0)
    run('limits', channel(9, 1) * 64 + field(3, 0, 64) + field(0, 0, 128) + field(3, 0, 1), 10)
    for shift, answer in ((28, 0), (29, 0), (30, 10), (31, 4)):
        for flags in range(4):
            both = (shift, 0) if flags % 2 else (0, shift)
            run('limits', channel(5, 4, *both) + field(flags, 0, 1), answer)
            run('limits', channel(5, 4) + channel(5, 4, *both) + field(flags, 0, 2), answer)
        run('limits', channel(9, 4, shift, 0), answer)
        run('limits', channel(4, 9, 0, shift), answer)
    for count, answer in ((29, 0), (30, 0), (31, 10)):
        for flags in (2, 3):
            run('limits', channel(3, 3) + field(flags, 0, 1) * count, answer)
    for first, number, flags in itertools.product(range(5), range(5), range(4)):
        run('limits', channel(3, 2) * 3 + field(flags, first, number), 0 if number and first + number <= 3 else 6)
    for w, h, answer in ((4096, 4096, 12), (4096, 4097, 5), (65535, 256, 12), (65535, 257, 5), (256, 65535, 12), (257, 65535, 5)):
        refused('limits', answer, channel(w, h), [1, 1, 1])
        refused('limits', answer, channel(w, h) + field(3, 0, 1), [0, 0, 0])
    refused('limits', 12, channel(4095, 4096) + channel(4096, 1), [2, 2, 2])
    refused('limits', 5, channel(4095, 4096) + channel(4097, 1), [2, 2, 2])


# Each refusal that a whole record can have. A slice of another length is the last of them.

SMALLEST = {
    1: [b'\x01', b'\x02', b'\x01\x06', b'\x01\x06\x00', channel(1, 1)[:4], channel(1, 1) + b'\x01'],
    2: [b'\x01\x00\x00', b'\x02\x00\x00', b'\xff\x00\x00', channel(1, 1) + field(3, 0, 1) + channel(1, 1)],
    7: [meta(1, 1) + channel(1, 1) + field(flags, 0, 2) for flags in range(4)] + [meta(1, 1) * 2 + channel(2, 2) + field(3, 1, 2)],
    8: [meta(1, 1) + field(0, 0, 1), meta(1, 1) + field(1, 0, 1), meta(1, 1) * 2 + channel(1, 1) + field(0, 0, 2)],
    9: [channel(0, 0) + field(2, 0, 1), channel(0, 1) + field(0, 0, 1), channel(1, 0) + field(1, 0, 1),
        meta(0, 1) + field(3, 0, 1), channel(9, 0) + channel(0, 9) + field(3, 0, 2), channel(20, 20) + channel(0, 5)],
    11: [meta(0, 0), meta(1, 1), meta(1, 1) * 2],
}


def lengths_off(n):
    """Lengths of which at least one is not n."""
    for k, wrong in itertools.product(range(3), sorted({n - 1, n + 1, 0, 2 * n, n + 9} - {-1, n})):
        yield [wrong if k == j else n for j in range(3)]
    yield from ([n + 1] * 3, [n + 1, n, n + 2], [n + 1, n + 1, n], [n, n + 1, n + 1])


def refusals():
    for table in (REFUSALS, SMALLEST):
        for number, records in table.items():
            for record in records:
                run('refusals', record, number)
    for record in (channel(0, 0), channel(1, 1), channel(2, 1) + field(3, 0, 1), channel(3, 3) + field(0, 0, 1),
                   meta(2, 2) + channel(9, 1), meta(2, 3) + field(2, 0, 1), channel(3, 2) * 4):
        for lengths in lengths_off(fitting(record)[0]):
            refused('refusals', 12, record, lengths)


# Two questions broken at once, in the record, or in the record and the slices' lengths: the first is the refusal.

def order():
    for number, record in ORDER:
        run('order', record, number)
    for number, records in itertools.chain(REFUSALS.items(), SMALLEST.items(), ((n, [r]) for n, r in ORDER)):
        for record in records:
            for lengths in ([0, 0, 0], [1, 2, 4], [5, 5, 4]):
                assert judge(record) == number
                refused('order', number, record, lengths)


# Records cut at each byte.

def cuts():
    three = channel(9, 2) * 3 + field(1, 1, 2) + field(3, 0, 3) + field(2, 2, 1)
    for record in (PRINTED, LONG, three, meta(2, 1) + channel(3, 2) + field(3, 1, 1) + field(0, 2, 1) + field(2, 0, 1)):
        for n in range(len(record) + 1):
            run('cuts', record[:n])


# Strips (document 02, A.8): as long as the program has room for, with both tags in a record, and their refusals. Longer
# ones are run by the host's tests.

def strips():
    run('strips', strip(65536, 1), 0)
    run('strips', strip(1, 65537) + channel(3, 2) + field(2, 0, 2) + field(0, 1, 1), 0)
    run('strips', strip(65536, 1, META, META) + channel(9, 5) + field(3, 0, 1) + field(1, 2, 1), 0)
    for number, records in STRIP_REFUSALS.items():
        for record in records:
            run('strips', record, number)
            refused('strips', number, record, [1, 2, 4])
    for w, h, answer in ((65536, 256, 12), (1048575, 16, 12), (16, 1048575, 12), (1048575, 17, 5), (1048576, 1, 4)):
        refused('strips', answer, strip(w, h), [1, 1, 1])
    refused('strips', 12, strip(65536, 1), [65536, 65536, 65535])


# Versions (document 02, A.11): pictures about both stopping sides, with and without version 2's field, with steps of
# their own, cut at each byte, and the refusals.

def versions():
    for version in (b'', VERSION_2):
        for w, h in itertools.product((31, 32, 33), repeat=2):
            for record in (channel(w, h), channel(w, h) * 3, meta(5, 2) + channel(w, h)):
                run('versions', version + record, 0)
        for w, h in ((64, 9), (65, 9), (9, 64), (9, 65), (64, 64), (65, 65), (1, 65), (65, 1)):
            run('versions', version + channel(w, h), 0)
            run('versions', version + meta(3, 1) + channel(w, h) * (4 if w * h < 1000 else 2), 0)
            run('versions', version + channel(w, h) + channel(5, 4) + field(3, 0, 2) + field(0, 1, 2), 9 if w == 1 else 0)
    for number, records in VERSION_REFUSALS.items():
        for record in records:
            run('versions', record, number)
            refused('versions', number, record, [1, 2, 4])
    whole = VERSION_2 + channel(34, 2) * 3 + field(1, 1, 2)
    for n in range(len(whole) + 1):
        run('versions', whole[:n])
    for lengths in lengths_off(fitting(VERSION_2 + channel(33, 2))[0]):
        refused('versions', 12, VERSION_2 + channel(33, 2), lengths)


# Marks (document 02, A.3): one sample at an end of the plain range or one past it in each channel of the pyramid, then of
# the picture, beside small ones. A run is marked where a step reads or makes that channel.

MARKED = [channel(10, 9), channel(10, 9) * 3, meta(4, 3) + channel(9, 9) * 3, VERSION_2 + channel(33, 2) * 2,
          channel(8, 8), channel(8, 8) * 2 + field(3, 1, 1), meta(5, 4) + channel(4, 4) + field(2, 0, 1),
          channel(5, 4) * 2 + field(3, 0, 2) + field(2, 0, 2), channel(5, 4) * 3 + field(1, 0, 2) + field(0, 1, 1),
          channel(8, 3) + field(3, 0, 1) + field(3, 1, 1) + field(0, 1, 2), channel(1, 7) * 2 + field(1, 0, 1) + field(3, 1, 1)]


def touched(channels, steps):
    """Whether a step reads or makes it, of each channel of the pyramid and of the picture."""
    of_pyramid, origins = [False] * len(channels), list(range(len(channels)))
    for s in steps:
        of_pyramid, origins = step_touched(of_pyramid, *s), step_origins(origins, *s)
    return of_pyramid, [any(t for t, o in zip(of_pyramid, origins) if o == k) for k in range(len(channels))]


def step_touched(flags, horizontal, inplace, first, number):
    made, after = [True] * number, flags[first + number:]
    return flags[:first] + made + (made + after if inplace else after + made)


def with_one(channels, k, sample):
    """Small samples of these channels, and this one somewhere in channel k."""
    planes = [[between(-9, 9) for _ in range(c[0] * c[1])] for c in channels]
    planes[k][below(len(planes[k]))] = sample
    return flat(planes)


def marks():
    for record in MARKED:
        _, channels, steps = meaning(record)
        lists, flags = layouts(channels, steps), touched(channels, steps)
        for of_picture, places in enumerate((lists[-1], channels)):
            for k, past in itertools.product(range(len(places)), (0, 1)):
                if places[k][0] * places[k][1] == 0:
                    continue
                made = with_one(places, k, pick([LOWEST - past, HIGHEST + past]))
                both = (write(record, made), made) if of_picture else (made, rebuild(record, made)[0])
                mark = accepted('marks', record, *both)
                assert mark == flags[of_picture][k] or not past
    for picture in ([HIGHEST, LOWEST], [LOWEST, HIGHEST], [HIGHEST, 0], [LOWEST, -1]):
        pyramid = write(channel(2, 1) + field(1, 0, 1), picture)
        mark = accepted('marks', channel(2, 1) + field(1, 0, 1), pyramid, picture)
        assert mark == (abs(pyramid[1]) == 536_870_911)


if __name__ == '__main__':
    vectors(sys.argv[1])
    for make in (sizes, plans, metas, limits, refusals, order, cuts, strips, versions, marks):
        dice.seed(make.__name__)
        make()
    for kind, cases in KINDS.items():
        sys.stdout.buffer.write(struct.pack('<I', len(cases)))
        for text in cases:
            sys.stdout.buffer.write(struct.pack('<I', len(text)) + text)
        print(kind, len(cases), 'right', len(cases), file=sys.stderr)
