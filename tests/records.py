#!/usr/bin/env python3
"""Makes crates/record_test/stdin: records, each with the listing that document 01 asks for, and inputs of the program
squeeze-list, each with what it prints.

usage: tests/records.py > crates/record_test/stdin

The rules are those of rules.py, written from the papers alone: a record read field by field, questions 1 to 11 in their
order, the default plan, a step on a list and the coarse count. The record that the document prints is held against its
text first.

The stream has for each kind of KINDS the number of its cases and the cases. A case is the number of a record's or an
input's bytes, these bytes, the number of its text's bytes and the text, and of a record that is accepted the number of bytes
and the numbers of its layout: version, steps, channels and coarse channels, flags, first and number of each step, width,
height and two shifts of each channel, and the origins; of any other 0. A number has four bytes, least byte first. The number
of cases of each kind goes to standard error.
"""
import struct
import sys

from random import Random

from rules import (VERSION_2, Refused, channel, coarse_count, field, is_meta, layouts, meaning, meta, plan_origins, read,
                   short, step, strip, tagged, total)

KINDS = {kind: [] for kind in ['printed', 'cuts', 'refusals', 'order', 'limits', 'sizes', 'metas', 'plans', 'bytes', 'strips', 'versions', 'origins', 'inputs']}


# The program squeeze-list: "judges the first 4,096 bytes of standard input".
JUDGED = 4096


def text(version, channels, steps):
    lines = [f'steps {len(steps)}']
    lines += [f'{"h" if s[0] else "v"} {"in" if s[1] else "out"} {s[2]} {s[3]}' for s in steps]
    channels = layouts(channels, steps)[-1]
    lines.append(f'channels {len(channels)}')
    lines += [f'{c[0]} {c[1]} m m' if is_meta(c) else '%d %d %d %d' % c for c in channels]
    return '\n'.join(lines + [f'coarse {coarse_count(channels, version)}', ''])


def listing(record):
    try:
        return text(*meaning(record))
    except Refused as refusal:
        return f'refused {refusal}\n'


# The numbers of a layout (document 02, A.4).

def numbers(version, channels, steps):
    left = layouts(channels, steps)[-1]
    found = [version, len(steps), len(left), coarse_count(left, version)]
    found += [n for s in steps for n in (s[0] + 2 * s[1], s[2], s[3])] + [n for c in left for n in c]
    return found + plan_origins(channels, steps)


def rows(record):
    try:
        found = numbers(*meaning(record))
        return struct.pack('<%dI' % len(found), *found)
    except Refused:
        return b''


# Records.

def case(kind, record, refusal=None):
    """`refusal`, where it is given, is what the case is there to show; 0 is none."""
    expected = listing(record[:JUDGED] if kind == 'inputs' else record)
    if refusal is not None:
        assert expected.startswith('steps ') if refusal == 0 else expected == f'refused {refusal}\n', (kind, expected)
    KINDS[kind].append((record, expected.encode(), b'' if kind == 'inputs' else rows(record)))


PRINTED = channel(20, 9)
TEXT = 'steps 3\nh in 0 1\nv in 0 1\nh in 0 1\nchannels 4\n5 5 2 1\n5 5 2 1\n10 4 1 1\n10 9 1 0\ncoarse 2\n'


def printed():
    assert listing(PRINTED) == TEXT
    case('printed', PRINTED, 0)


# A record cut at every byte: inside a field 1, at a field's end whatever the fields before it give.
LONG = meta(3, 5) + channel(20, 9) + channel(20, 9, 1, 2) + field(3, 1, 2) + field(0, 1, 3) + field(2, 0, 1)


def cuts():
    for n in range(len(LONG) + 1):
        inside = n in (0, 9, 18, 27, 35, 43, 51)
        case('cuts', LONG[:n], None if inside else 1)


REFUSALS = {
    1: [channel(1, 1)[:8], channel(1, 1) + b'\x02\x05', b'\x07\xff\xff'],
    2: [b'\x00\x00\x00', b'\x03\x06\x00' + bytes(6), b'\x01\x05\x00' + bytes(5), b'\x02\x06\x00' + bytes(6),
        channel(9, 9) + field(3, 0, 1) + channel(9, 9)],
    3: [b'', field(3, 0, 1), channel(1, 1) * 257, channel(64, 1) + field(3, 0, 1) * 65],
    4: [channel(9, 9, 31, 0), channel(9, 9, 0, 31), channel(9, 9, 255, 0), channel(9, 9, 0, 255), channel(9, 9, 254, 254),
        channel(9, 9) + meta(9, 9), channel(9, 9) + field(4, 0, 1), channel(9, 9) + field(255, 0, 1)],
    5: [channel(4096, 4097), channel(65535, 65535), channel(4096, 4096) + channel(1, 1), meta(65535, 300)],
    6: [channel(9, 9) + field(3, 0, 0), channel(9, 9) + field(3, 0, 2), channel(9, 9) + field(3, 1, 1),
        channel(9, 9) + field(3, 65535, 65535), channel(9, 9) + field(3, 0, 1) + field(3, 1, 2)],
    7: [meta(9, 9) + channel(9, 9) + field(3, 0, 2)],
    8: [meta(9, 9) + channel(9, 9) + field(1, 0, 1), meta(9, 9) + field(0, 0, 1)],
    9: [channel(0, 9) + field(3, 0, 1), channel(9, 0) + field(3, 0, 1), channel(1, 1) + field(3, 0, 1) + field(3, 1, 1),
        channel(9, 9) + channel(9, 0) + channel(9, 9) + field(3, 0, 3)],
    10: [channel(9, 9, 30, 0) + field(3, 0, 1), channel(9, 9, 0, 30) + field(2, 0, 1), channel(2, 2) * 256 + field(3, 0, 1),
         channel(9, 9) * 130 + field(1, 0, 127)],
    11: [meta(9, 9), meta(1, 1) * 256],
}


def refusals():
    for number, records in REFUSALS.items():
        for record in records:
            case('refusals', record, number)


# Two questions broken at once: the first in the paper's order is the refusal; in a form, the first field's.
ORDER = [
    (1, b'\x09\x04\x00\x01'), (1, channel(1, 1) * 256 + b'\x01\x06\x00\x01'), (1, channel(9, 9) + b'\x02\x05\x00\xff'),
    (2, channel(1, 1) * 256 + b'\x01\x07\x00' + bytes(7)), (2, channel(9, 9) + field(3, 0, 1) + channel(9, 9, 31, 0)),
    (3, channel(1, 1) * 256 + channel(1, 1, 31, 0)), (3, channel(1, 1) + field(3, 0, 1) * 64 + field(4, 0, 1)),
    (3, field(3, 0, 0)), (4, channel(9, 9, 31, 0) + b'\x01\x06'), (4, channel(65535, 65535, 31, 0)),
    (4, channel(65535, 65535) + field(4, 0, 0)), (4, channel(9, 9, 31, 0) + channel(1, 1) * 256),
    (3, channel(1, 1) * 257 + b'\x01'), (2, b'\x05\x00\x00\x01'), (4, field(7, 0, 1)),
    (5, meta(65535, 65535)), (5, channel(65535, 65535) + field(3, 0, 0)),
    (6, meta(9, 9) + channel(9, 9) + field(1, 0, 3)), (6, channel(0, 0) + field(3, 0, 2)), (6, meta(9, 9) + field(1, 0, 0)),
    (7, meta(9, 9) + channel(9, 9) + field(1, 0, 2)), (7, meta(0, 0) + channel(0, 0) + field(3, 0, 2)),
    (7, meta(2, 2) + channel(2, 2, 30, 30) * 255 + field(1, 0, 2)),
    (8, meta(0, 9) + field(1, 0, 1)), (8, meta(2, 2) * 256 + field(1, 0, 1)),
    (9, channel(0, 9, 30, 30) + field(3, 0, 1)), (9, channel(0, 2) * 256 + field(3, 0, 1)),
    (9, channel(0, 9) + field(3, 0, 1) + field(3, 9, 9)), (6, channel(9, 9) + field(3, 9, 9) + field(0, 0, 0)),
]


def order():
    for number, record in ORDER:
        case('order', record, number)


# Limits: 64 and 65 steps, 256 and 257 channels, shifts 30 and 31, the range's end at and past the count, samples.

def limits():
    small = channel(8, 8)
    for steps in (1, 63, 64, 65, 66):
        case('limits', b''.join(channel(k + 1, 2) for k in range(66)) + b''.join(field(0, k, 1) for k in range(steps)), 0 if steps < 65 else 3)
        case('limits', channel(1, 1) + field(3, 0, 1) * steps, 0 if steps < 31 else 10 if steps < 65 else 3)
        case('limits', channel(65535, 1, 10, 10) * 192 + b''.join(field(1, 100 + k, 1) for k in range(steps)), 0 if steps < 65 else 3)
    for count in (1, 2, 3, 128, 129, 252, 253, 255, 256, 257, 258):
        case('limits', channel(1, 1) * count, 0 if count < 257 else 3)
        case('limits', small * count, 0 if count < 253 else 10 if count < 257 else 3)
        case('limits', small * count + field(3, 0, 1), 0 if count < 256 else 10 if count == 256 else 3)
        case('limits', small * count + field(1, 0, min(count, 128)), 0 if count <= 128 else 10 if count <= 256 else 3)
    for shift in (0, 1, 29, 30, 31, 32, 254, 255):
        for record in (channel(8, 8, shift, 0), channel(8, 8, 0, shift), channel(8, 8, shift, shift),
                       channel(9, 8, shift, 0), channel(8, 9, 0, shift)):
            case('limits', record)
            case('limits', record + field(3, 0, 1))
            case('limits', record + field(0, 0, 1))
    for first in range(6):
        for number in range(6):
            for flags in range(4):
                case('limits', small * 4 + field(flags, first, number), 0 if number and first + number <= 4 else 6)
    for w, h, refusal in ((4096, 4096, 0), (4096, 4097, 5), (65535, 256, 0), (65535, 257, 5), (256, 65535, 0), (65535, 1, 0)):
        case('limits', channel(w, h), refusal)


# Sides 0, 1, 2 and about the stopping side and its doubles.

def sizes():
    for w in (0, 1, 2, 7, 8, 9, 16, 17, 33, 65535):
        for h in (0, 1, 2, 7, 8, 9, 16, 17, 33):
            case('sizes', channel(w, h))
            case('sizes', channel(w, h) * 3)
            for flags in range(4):
                case('sizes', channel(w, h) + field(flags, 0, 1))


# Meta channels: before the others, squeezed, all of them.

def metas():
    for m in range(4):
        for n in range(5):
            record = meta(20, 3) * m + channel(20, 9) * n
            case('metas', record)
            for flags in range(4):
                for first, number in ((0, 1), (0, m), (m, n), (0, m + n), (m - 1, 2)):
                    if first >= 0:
                        case('metas', record + field(flags, first, number))


# Palettes (document 02, A.2): what is printed, by hand.

PALETTES = [
    (meta(300, 1) + channel(20, 9),
     'steps 3|h in 1 1|v in 1 1|h in 1 1|channels 5|300 1 m m|5 5 2 1|5 5 2 1|10 4 1 1|10 9 1 0|coarse 3|'),
    (meta(300, 1) + meta(40, 2) + channel(20, 9) + field(3, 1, 1),
     'steps 1|h in 1 1|channels 4|300 1 m m|20 2 m m|20 2 m m|20 9 0 0|coarse 3|'),
    (meta(300, 1) + meta(40, 2) + field(3, 0, 1) + field(2, 2, 1),
     'steps 2|h in 0 1|v in 2 1|channels 4|150 1 m m|150 1 m m|40 1 m m|40 1 m m|coarse 4|'),
    (meta(300, 1) + channel(9, 8) + channel(1, 1) + field(2, 2, 1),
     'steps 1|v in 2 1|channels 4|300 1 m m|9 8 0 0|1 1 0 1|1 0 0 1|coarse 1|'),
    (channel(20, 9) + channel(1, 1) + field(3, 1, 1),
     'steps 1|h in 1 1|channels 3|20 9 0 0|1 1 1 0|0 1 1 0|coarse 0|'),
]


def palettes():
    for record, expected in PALETTES:
        assert listing(record) == expected.replace('|', '\n'), expected
        case('metas', record, 0)
    for width in (7, 8, 9, 300, 65535):
        for height in (0, 1, 8, 9):
            case('metas', meta(width, height) + channel(20, 9))
            case('metas', meta(width, height) * 2 + channel(9, 8) + channel(1, 1) + field(2, 3, 1))
            case('metas', meta(width, height) + meta(3, 1) + field(3, 1, 1))


# Default plans of three and more channels, alike or not, and longer plans on them.

def plans():
    for second in ((40, 30), (20, 30), (40, 15), (20, 15), (1, 1)):
        for third in ((40, 30), (20, 15)):
            for metas in range(3):
                record = meta(5, 5) * metas + channel(40, 30) + channel(*second) + channel(*third)
                case('plans', record)
                case('plans', record + channel(40, 30))
                for flags in range(4):
                    case('plans', record + field(flags, metas + 1, 2) + field(3 - flags, metas, 1))
                    case('plans', record + field(flags, metas, 3) + field(flags ^ 2, metas, 2) + field(flags ^ 1, metas + 2, 3))
    for sides in ((1, 40), (40, 1), (2, 2), (1, 1), (1, 2), (2, 1)):
        case('plans', channel(*sides) * 3, 0)


# Strips (document 02, A.8): both tags about their limits, by themselves, mixed, after a step, cut at every byte.

STRIPS = [
    (strip(65536, 1), 'steps 13|' + 'h in 0 1|' * 13 + 'channels 14|8 1 13 0|8 1 13 0|' + ''.join(
        f'{2 ** k} 1 {16 - k} 0|' for k in range(4, 16)) + 'coarse 2|'),
    (strip(1, 1048575) + field(2, 0, 1), 'steps 1|v in 0 1|channels 2|1 524288 0 1|1 524287 0 1|coarse 0|'),
    (strip(1048575, 1, 255, 255) + channel(20, 9) + strip(2, 65536, 1, 2) + field(3, 0, 1) + field(0, 2, 2),
     'steps 2|h in 0 1|v out 2 2|channels 6|524288 1 m m|524287 1 m m|20 5 0 1|2 32768 1 3|20 4 0 1|2 32768 1 3|coarse 2|'),
    (strip(1048575, 16) + field(3, 0, 1), 'steps 1|h in 0 1|channels 2|524288 16 1 0|524287 16 1 0|coarse 0|'),
]

STRIP_REFUSALS = {
    1: [strip(65536, 1)[:12], b'\x03\x0a\x00' + bytes(9), channel(1, 1) + b'\x03\x0a'],
    2: [b'\x03\x06\x00' + bytes(6), b'\x01\x0a\x00' + strip(65536, 1)[3:], channel(9, 9) + field(3, 0, 1) + strip(65536, 1),
        channel(9, 9) + field(3, 0, 1) + strip(1, 1), b'\x04\x0a\x00' + bytes(10)],
    3: [strip(65536, 1) * 257, channel(1, 1) * 256 + strip(65536, 1), channel(1, 1) * 256 + strip(1, 1)],
    4: [strip(65535, 65535), strip(1, 1), strip(0, 0), strip(65535, 1, 255, 255), strip(1048576, 1), strip(1, 1048576), strip(1048576, 0),
        strip(4294967295, 1), strip(4294967295, 4294967295), strip(65536, 1, 31, 0), strip(65536, 1, 255, 0), strip(0, 1048576, 255, 255),
        channel(9, 9) + strip(65536, 1, 255, 255), strip(65536, 1) + channel(9, 9, 255, 255), strip(1, 1) + b'\x03'],
    5: [strip(1048575, 17), strip(65536, 65536), strip(1048575, 16) + channel(17, 1), strip(1048575, 1048575) * 256],
    9: [strip(65536, 0), strip(0, 65536)],
    11: [strip(65536, 1, 255, 255)],
}


def strips():
    for record, expected in STRIPS:
        assert listing(record) == expected.replace('|', '\n'), (listing(record), expected)
        case('strips', record, 0)
    for number, records in STRIP_REFUSALS.items():
        for record in records:
            case('strips', record, number)
    mixed = strip(65536, 1, 255, 255) + short(20, 9) + strip(3, 1048575) + short(65535, 2) + field(3, 1, 2) + field(0, 0, 1)
    for n in range(len(mixed) + 1):
        case('strips', mixed[:n], None if n in (0, 13, 22, 35, 44, 52, 60) else 1)
    for side in (0, 1, 65535, 65536, 1048575, 1048576, 4294967295):
        for other in (0, 1, 16, 65535, 65536, 1048575, 1048576):
            for shifts in ((0, 0), (255, 255), (30, 30)):
                for c in ((side, other, *shifts), (other, side, *shifts)):
                    case('strips', strip(*c))
                    case('strips', strip(*c) + channel(20, 9) + field(2, 0, 1))
    for count in (255, 256, 257):
        case('strips', strip(65536, 1) * count + field(3, 0, 1), 0 if count == 255 else 10 if count == 256 else 3)
        case('strips', strip(65536, 1, 10, 10) * (count - 64) + b''.join(field(1, 100 + k, 1) for k in range(64)), 10 if count == 257 else 0)


# Versions (document 02, A.11): what is printed, by hand; tag 4 in every place and form; sizes about both stopping sides.

VERSIONS = [
    (VERSION_2 + channel(20, 9), 'steps 0|channels 1|20 9 0 0|coarse 1|'),
    (VERSION_2 + channel(32, 32), 'steps 0|channels 1|32 32 0 0|coarse 1|'),
    (VERSION_2 + channel(33, 32), 'steps 1|h in 0 1|channels 2|17 32 1 0|16 32 1 0|coarse 2|'),
    (VERSION_2 + channel(32, 33), 'steps 1|v in 0 1|channels 2|32 17 0 1|32 16 0 1|coarse 2|'),
    (VERSION_2 + channel(65, 64), 'steps 3|h in 0 1|v in 0 1|h in 0 1|channels 4|17 32 2 1|16 32 2 1|33 32 1 1|32 64 1 0|coarse 2|'),
    (VERSION_2 + channel(64, 65), 'steps 3|v in 0 1|h in 0 1|v in 0 1|channels 4|32 17 1 2|32 16 1 2|32 33 1 1|64 32 0 1|coarse 2|'),
    (VERSION_2 + channel(64, 9) * 3,
     'steps 1|h in 0 3|channels 6|32 9 1 0|32 9 1 0|32 9 1 0|32 9 1 0|32 9 1 0|32 9 1 0|coarse 6|'),
    (VERSION_2 + channel(9, 9) * 4, 'steps 0|channels 4|9 9 0 0|9 9 0 0|9 9 0 0|9 9 0 0|coarse 4|'),
    (VERSION_2 + meta(300, 1) + channel(33, 9), 'steps 1|h in 1 1|channels 3|300 1 m m|17 9 1 0|16 9 1 0|coarse 3|'),
    (VERSION_2 + channel(20, 9) + field(3, 0, 1), 'steps 1|h in 0 1|channels 2|10 9 1 0|10 9 1 0|coarse 2|'),
    (channel(20, 9) + field(3, 0, 1), 'steps 1|h in 0 1|channels 2|10 9 1 0|10 9 1 0|coarse 0|'),
]

VERSION_REFUSALS = {
    1: [b'\x04', b'\x04\x01', b'\x04\x01\x00', b'\x04\x02\x00\x02', b'\x04\xff\xff\x02', PRINTED + VERSION_2[:3]],
    2: [b'\x04\x00\x00', b'\x04\x00\x00' + PRINTED, tagged(2, 2) + PRINTED, tagged(1, 2) + PRINTED, tagged(2, 256) + PRINTED, VERSION_2 * 2,
        VERSION_2 * 2 + PRINTED, VERSION_2 + tagged(1) + PRINTED, PRINTED + VERSION_2, VERSION_2 + PRINTED + VERSION_2, PRINTED + tagged(1),
        PRINTED + field(3, 0, 1) + VERSION_2, VERSION_2 + PRINTED + field(3, 0, 1) + VERSION_2, channel(1, 1) * 256 + VERSION_2],
    3: [VERSION_2, VERSION_2 + field(3, 0, 1), VERSION_2 + channel(1, 1) * 257, VERSION_2 + channel(64, 1) + field(3, 0, 1) * 65],
    4: [tagged(value) + PRINTED for value in (0, 1, 3, 4, 255)] + [tagged(1), tagged(1) + b'\x04', VERSION_2 + channel(9, 9, 31, 0)],
    5: [VERSION_2 + channel(4096, 4097), VERSION_2 + meta(65535, 300)],
    6: [VERSION_2 + channel(9, 9) + field(3, 0, 2)],
    9: [VERSION_2 + channel(33, 0), VERSION_2 + channel(0, 33), VERSION_2 + channel(33, 33) + channel(0, 5)],
    10: [VERSION_2 + channel(64, 9, 30, 0), VERSION_2 + channel(33, 9) * 129],
    11: [VERSION_2 + meta(9, 9)],
}


def versions():
    for record, expected in VERSIONS:
        assert listing(record) == expected.replace('|', '\n'), (listing(record), expected)
        case('versions', record, 0)
    for number, records in VERSION_REFUSALS.items():
        for record in records:
            case('versions', record, number)
    for w in (9, 31, 32, 33, 64, 65):
        for h in (1, 9, 31, 32, 33, 64, 65):
            for record in (channel(w, h), channel(w, h) * 3, channel(w, h) * 4, meta(20, 3) + channel(w, h) * 2):
                for version in (b'', VERSION_2):
                    case('versions', version + record)
                    case('versions', version + record + field(1, len(record) // 9 - 1, 1))
    whole = VERSION_2 + meta(3, 5) + channel(40, 9) + strip(65536, 1, 1, 2) + field(3, 1, 2) + field(0, 1, 1)
    for n in range(len(whole) + 1):
        case('versions', whole[:n], None if n in (0, 4, 13, 22, 35, 43, 51) else 1)
        case('versions', whole[:n] + VERSION_2, 2 if n in (4, 13, 22, 35, 43, 51) else None)


# Origins (document 02, A.4): a record, and the origins that its plan leaves.

A, M = channel(4, 4), meta(7, 3)
H, V = 1, 0  # flags: 1 for horizontal, and 2 for in place
ORIGINS = [
    (A, [0]), (PRINTED, [0] * 4),
    (A * 3 + field(H + 2, 0, 1), [0, 0, 1, 2]), (A * 3 + field(H, 0, 2), [0, 1, 2, 0, 1]),
    (A * 3 + field(V + 2, 1, 2), [0, 1, 2, 1, 2]), (A * 2 + field(H + 2, 0, 1) + field(H + 2, 1, 1), [0, 0, 0, 1]),
    (A * 2 + field(H, 0, 2) + field(V, 3, 1) + field(V + 2, 4, 1), [0, 1, 0, 1, 1, 1]),
    (A * 3 + field(H + 2, 0, 1) + field(H + 2, 1, 1) + field(V, 3, 1), [0, 0, 0, 1, 2, 1]),
    (M + channel(9, 9) + field(H + 2, 0, 1) + field(V + 2, 2, 1), [0, 0, 1, 1]),
    (M * 2 + A + field(V + 2, 0, 2), [0, 1, 0, 1, 2]),
    (channel(9, 9) * 3, [0, 1, 2] * 3 + [1, 2] * 2), (VERSION_2 + channel(33, 9) * 3, [0, 1, 2] * 2),
    (channel(2, 2) * 128 + field(H, 0, 128), list(range(128)) * 2),
    (channel(2, 2) * 128 + field(H + 2, 0, 128), list(range(128)) * 2),
    (channel(2, 2) * 128 + field(H + 2, 1, 127) + field(V, 255 - 127, 1), [0] + list(range(1, 128)) * 2 + [1]),
]


def origins():
    for record, expected in ORIGINS:
        _, channels, steps = meaning(record)
        assert plan_origins(channels, steps) == expected, (record, plan_origins(channels, steps))
        case('origins', record, 0)
    random = Random(44)
    for _ in range(300):
        record = random.choice([b'', VERSION_2]) + M * random.randrange(3)
        record += b''.join(channel(random.randrange(1, 50), random.randrange(1, 50)) for _ in range(random.randrange(1, 6)))
        record += b''.join(field(*s) for s in random_steps(random, read(record)[1]))
        case('origins', record, 0)
        _, channels, steps = meaning(record)
        left, found = layouts(channels, steps)[-1], plan_origins(channels, steps)
        for o, c in enumerate(channels):
            assert total([d for d, of in zip(left, found) if of == o]) == total([c])


def random_steps(random, channels):
    """Flags, first and number of some steps that are accepted one after the other."""
    steps = []
    for _ in range(random.randrange(12)):
        flags, first, number = random.randrange(4), random.randrange(len(channels)), random.randrange(1, 4)
        try:
            channels = step(channels, flags % 2, flags // 2, first, number)
            steps.append((flags, first, number))
        except Refused:
            pass
    return steps


# Long inputs, and each value of a byte of the printed record.

def byte_values():
    case('bytes', b'', 3)
    for n in (4095, 4096, 4097, 5000):
        case('bytes', (channel(1, 1) * 600)[:n], 3)
        case('bytes', channel(1, 1) + (field(3, 0, 1) * 600)[:n - 9], 3)
        case('bytes', b'\x01\x06\x00' + bytes(n - 3), 2)
        case('bytes', struct.pack('<BH', 9, n - 3) + bytes(n - 3), 2)
        case('bytes', struct.pack('<BH', 9, n - 2) + bytes(n - 3), 1)
    for at in range(len(PRINTED)):
        for value in range(256):
            case('bytes', PRINTED[:at] + bytes([value]) + PRINTED[at + 1:])
    for at in range(8):
        for value in (0, 1, 2, 3, 4, 5, 6, 128, 255):
            step_bytes = field(3, 0, 1)
            case('bytes', PRINTED + step_bytes[:at] + bytes([value]) + step_bytes[at + 1:])


# Inputs about and past the bytes that are judged: an accepted record alone and with more after it, and one field that
# ends before, at or past the last byte judged. Uncut, a field that ends past it would be refused with 2.

def long_field(length, record=b''):
    """The record and a field of another form, `length` bytes in all."""
    body = length - len(record) - 3
    return record + struct.pack('<BH', 1, body) + bytes(body)


def inputs():
    longest = channel(65535, 1, 10, 10) * 192 + b''.join(field(1, 100 + k, 1) for k in range(64))
    widest = strip(65536, 1, 10, 10) * 192 + b''.join(field(1, 100 + k, 1) for k in range(64))
    for record in (PRINTED, LONG[:27], longest, widest, VERSION_2 + PRINTED, VERSION_2 + widest):
        case('inputs', record, 0)
    for start, refusal in ((b'', 3), (b'\x00', 1), (b'\x01', 1), (PRINTED[:-1], 1), (PRINTED + b'\x01', 1)):
        case('inputs', start, refusal)
    for length in (JUDGED - 1, JUDGED, JUDGED + 1):
        case('inputs', long_field(length), 2 if length <= JUDGED else 1)
        case('inputs', long_field(length, PRINTED), 2 if length <= JUDGED else 1)
        case('inputs', PRINTED + b'\xa7' * (length - len(PRINTED)), 1)
    case('inputs', long_field(JUDGED)[:-1], 1)
    case('inputs', long_field(JUDGED) + b'\x01', 2)
    case('inputs', longest + bytes(6000 - len(longest)), 2)
    case('inputs', long_field(6000), 1)
    case('inputs', (channel(1, 1) * 1200)[:10000], 3)
    case('inputs', long_field(10000, PRINTED), 1)


if __name__ == '__main__':
    for make in (printed, cuts, refusals, order, limits, sizes, metas, palettes, plans, byte_values, strips, versions, origins, inputs):
        make()
    out = sys.stdout.buffer
    for kind, cases in KINDS.items():
        out.write(struct.pack('<I', len(cases)))
        for parts in cases:
            out.write(b''.join(struct.pack('<I', len(part)) + part for part in parts))
        print(kind, len(cases), 'refused', sum(expected.startswith(b'refused') for _, expected, _ in cases), file=sys.stderr)
