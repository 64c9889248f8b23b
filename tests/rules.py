"""The papers' rules in plain form, for the generators beside this file: records, lists, plans and the pair.

A channel is (width, height, horizontal shift, vertical shift), a step (horizontal, in place, first, number). Written
from document 01 alone, the coarse count from document 02, A.2, the mark from its A.3, origins from its A.4, sides and
tag 3 from its A.8, versions from its A.11.
"""
import struct

MAX_CHANNELS, MAX_STEPS, MAX_SAMPLES, MAX_SHIFT, META = 256, 64, 16_777_216, 30, 255
MAX_SIDE, MAX_SHORT_SIDE = 1_048_575, 65_535

# "From plan version 2, the default plan stops at 32 in place of 8 and has no chroma steps first."
STOPS, CHROMA = {1: 8, 2: 32}, {1: True, 2: False}


class Refused(Exception):
    pass


def ask(answer, number):
    if not answer:
        raise Refused(number)


# Questions 1 to 4, field by field.

def read(record):
    version, channels, steps, at = 1, [], [], 0
    while at < len(record):
        ask(at + 3 <= len(record), 1)
        tag, length = record[at], record[at + 1] + 256 * record[at + 2]
        body = record[at + 3:at + 3 + length]
        ask(len(body) == length, 1)
        ask((tag, length) in [(1, 6), (2, 5), (3, 10), (4, 1)], 2)
        ask(not (tag in (1, 3) and steps) and not (tag == 4 and at > 0), 2)
        if tag == 4:
            ask(body[0] == 2, 4)
            version = 2
        elif tag in (1, 3):
            ask(len(channels) < MAX_CHANNELS, 3)
            c = struct.unpack('<HHBB' if tag == 1 else '<IIBB', body)
            ask(is_allowed(c), 4)
            ask(not is_meta(c) or all(is_meta(c) for c in channels), 4)
            ask(tag == 1 or is_strip(c), 4)
            channels.append(c)
        else:
            ask(len(steps) < MAX_STEPS, 3)
            flags, first, number = struct.unpack('<BHH', body)
            ask(flags < 4, 4)
            steps.append((flags % 2 == 1, flags // 2 == 1, first, number))
        at += 3 + length
    ask(channels, 3)
    return version, channels, steps


def is_meta(c):
    return c[2] == c[3] == META


# Question 4 of one channel, with "a side above the limit".

def is_allowed(c):
    return max(c[:2]) <= MAX_SIDE and (is_meta(c) or max(c[2:]) <= MAX_SHIFT)


# "A channel with a side above 65,535 is stored under tag 3 .. A channel that fits tag 1 is always written so".

def is_strip(c):
    return max(c[:2]) > MAX_SHORT_SIDE


def total(channels):
    return sum(c[0] * c[1] for c in channels)


# "A leading meta channel is to be counted .. of any size; the count still ends at the first other channel with a side
# above 8" (document 02, A.2). "The coarse count takes the version's side."

def coarse_count(channels, version=1):
    ends = (k for k, c in enumerate(channels) if not is_meta(c) and max(c[:2]) > STOPS[version])
    return next(ends, len(channels))


# "Default plan (reference `default_squeeze`)".

def default_plan(channels, version=1):
    stop = STOPS[version]
    m = sum(is_meta(c) for c in channels)
    n = len(channels) - m
    ask(n > 0, 11)
    w, h = channels[m][:2]
    steps = []
    if CHROMA[version] and n > 2 and channels[m + 1][:2] == (w, h):
        steps += [(True, False, m + 1, 2)] * (w > 1) + [(False, False, m + 1, 2)] * (h > 1)
    if w <= h and h > stop:
        steps.append((False, True, m, n))
        h = (h + 1) // 2
    while w > stop or h > stop:
        if w > stop:
            steps.append((True, True, m, n))
            w = (w + 1) // 2
        if h > stop:
            steps.append((False, True, m, n))
            h = (h + 1) // 2
    return steps


# Questions 7 to 11, and the list that a step leaves.

def part(c, horizontal, rest):
    w, h, sh, sv = c
    side = w if horizontal else h
    half = side // 2 if rest else side - side // 2
    raised = (sh, sv) if is_meta(c) else (sh + horizontal, sv + (not horizontal))
    return ((half, h) if horizontal else (w, half)) + raised


def step(channels, horizontal, inplace, first, number):
    end = first + number
    ask(number >= 1 and end <= len(channels), 6)
    ask(is_meta(channels[first]) == is_meta(channels[end - 1]), 7)
    ask(inplace or not is_meta(channels[first]), 8)
    ask(all(c[0] > 0 and c[1] > 0 for c in channels[first:end]), 9)
    averages = [part(c, horizontal, False) for c in channels[first:end]]
    residuals = [part(c, horizontal, True) for c in channels[first:end]]
    ask(len(channels) + number <= MAX_CHANNELS, 10)
    ask(all(is_meta(c) or max(a[2:]) <= MAX_SHIFT for c, a in zip(channels[first:end], averages)), 10)
    after = channels[end:]
    return channels[:first] + averages + (residuals + after if inplace else after + residuals)


# "A residual takes the origin of the channel squeezed, also when that was itself a residual."

def step_origins(origins, horizontal, inplace, first, number):
    squeezed, after = origins[first:first + number], origins[first + number:]
    return origins[:first] + squeezed + (squeezed + after if inplace else after + squeezed)


# "A plan run starts by giving each channel its own position."

def plan_origins(channels, steps):
    origins = list(range(len(channels)))
    for s in steps:
        origins = step_origins(origins, *s)
    return origins


def meaning(record):
    """The version, the channels and the steps that a record means, by questions 1 to 6."""
    version, channels, steps = read(record)
    ask(total(channels) <= MAX_SAMPLES, 5)
    return version, channels, steps or default_plan(channels, version)


def layouts(channels, steps):
    """The list before the first step, and the list that each step leaves."""
    lists = [channels]
    for s in steps:
        lists.append(step(lists[-1], *s))
    return lists


# Fields of a record.

def short(w, h, sh=0, sv=0):
    return struct.pack('<BHHHBB', 1, 6, w, h, sh, sv)


def strip(w, h, sh=0, sv=0):
    return struct.pack('<BHIIBB', 3, 10, w, h, sh, sv)


def channel(*c):
    return strip(*c) if is_strip(c) else short(*c)


def meta(w, h):
    return channel(w, h, META, META)


def tagged(value, length=1):
    """Tag 4, with a value and a length of any kind."""
    return struct.pack('<BH', 4, length) + bytes([value]) + bytes(max(length - 1, 0))


VERSION_2 = tagged(2)


def field(flags, first, number):
    return struct.pack('<BHBHH', 2, 5, flags, first, number)


# "The pair", and a line of the tile call's rule.

def wrap(z):
    return (z + 2**31) % 2**32 - 2**31


def tendency(a, b, c):
    x, y, z = wrap(a - b), wrap(b - c), wrap(a - c)
    if x < 0 < y or y < 0 < x:
        return 0
    p, q, r = wrap(abs(x)), wrap(abs(y)), wrap(abs(z))
    t = p * 0x55555556 >> 32
    v = wrap(2 + r + t) >> 2
    if v > wrap(2 * p + (v & 1)):
        v = wrap(2 * p + 1)
    if wrap(v + (v & 1)) > wrap(2 * q):
        v = wrap(2 * q)
    return wrap(-v) if z < 0 else v


def half(d):
    return d // 2 if d >= 0 else -(-d // 2)


def pairs(avg, res, following, before):
    """The pairs of a line, each its average, residual, next average, previous output, first and second; `following` and
    `before` are lists of one sample of the outer lines, or empty."""
    made = []
    for i, r in enumerate(res):
        after = avg[i + 1] if i + 1 < len(avg) else (following or [avg[i]])[0]
        left = made[-1][5] if made else (before or [avg[0]])[0]
        d = wrap(r + tendency(left, avg[i], after))
        first = wrap(avg[i] + half(d))
        made.append((avg[i], r, after, left, first, wrap(first - d)))
    return made


def line(avg, res, following, before):
    """A line's samples."""
    return [x for pair in pairs(avg, res, following, before) for x in pair[4:]] + avg[len(res):]


def squeezed(samples):
    """A line's averages and residuals: the writer's."""
    pairs = list(zip(samples[::2], samples[1::2]))
    avg = [wrap(x - half(wrap(x - y))) for x, y in pairs] + samples[2 * len(pairs):]
    res = []
    for i, (x, y) in enumerate(pairs):
        before = samples[2 * i - 1] if i > 0 else avg[0]
        after = avg[i + 1] if i + 1 < len(avg) else avg[i]
        res.append(wrap(x - y - tendency(before, avg[i], after)))
    return avg, res


# "Whether any of its inputs or its two outputs lies outside −268,435,456 to 268,435,455. Lines .. say it for all pairs
# under them and for the averages that a step copies" (document 02, A.3).

LOWEST, HIGHEST = -268_435_456, 268_435_455


def outside(samples):
    return any(not LOWEST <= x <= HIGHEST for x in samples)


def line_marked(avg, res, following, before):
    return any(map(outside, pairs(avg, res, following, before))) or outside(avg[len(res):])
