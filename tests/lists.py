#!/usr/bin/env python3
"""Makes crates/list_test/stdin: lists, steps and plans with the answers they must get.

usage: tests/lists.py LIST.TXT DEFAULT.TXT SMALL.TXT > crates/list_test/stdin

The three files are answers of the published Rust, one case to a line: `list CHANNELS | STEPS => ok LIST / LIST ..`,
where a refused step ends the answer with `error NAME`, `default CHANNELS => ok STEPS` or `panic`, and `small CHANNEL =>
true` or `false` of `is_meta_or_small(8)` (small.py makes these). A channel is `W H HS VS` or `W H m m`, a step `h|v in|out
FIRST NUMBER`. Document 01 refuses some of what the Rust lets through: INSTEAD has every such difference. The other cases
are made here by the papers' rules (rules.py), those that they name themselves as rows with the answer written out.

The stream has for each source and kind (SAYS) the number of its cases and the cases, and it is numbers of four bytes, least
byte first. The sources are the Rust and the rules, both under version 1, the rules under any version, and lists that come
with any origins. A case is its length in bytes, and by its kind
    step    list, step, answer, list afterwards if that is 0
    plan    version, list, plan, answer, list afterwards if that is 0
    default version, list, answer, plan
    coarse  version, list, answer, coarse count
    meant   version, list, plan, answer, plan that is meant
where
    list    count, how many entries follow, width, height and hshift + 256 * vshift + 65,536 * origin of each
    plan    count, how many entries follow, flags, first and number of each
    step    1 if horizontal, 1 if in place, first, number
and the last entry that follows stands for the rest of its array too.
"""
import struct
import sys
from random import Random

import rules
from rules import (MAX_CHANNELS, MAX_SAMPLES, MAX_STEPS, META, STOPS, coarse_count, default_plan, is_allowed, is_meta,
                   plan_origins, step_origins, total)

RUST, OWN, VERSIONS, ORIGINS = 'Rust', 'own', 'versions', 'origins'
STEP, PLAN, DEFAULT, COARSE, MEANT = 'steps', 'plans', 'default plans', 'coarse counts', 'steps meant'
SAYS = [(RUST, STEP), (RUST, PLAN), (RUST, DEFAULT), (RUST, COARSE)]
SAYS += [(source, kind) for source in (OWN, VERSIONS) for kind in (STEP, PLAN, DEFAULT, COARSE, MEANT) if (source, kind) != (VERSIONS, STEP)]
SAYS += [(ORIGINS, STEP), (ORIGINS, PLAN)]
PROGRAM_ROOM = 16_384

# ---- document 01's rules, over those of rules.py, with a refusal's number as the answer
def judge_list(channels):
    if not 1 <= len(channels) <= MAX_CHANNELS:
        return 3
    metas = [is_meta(c) for c in channels]
    if not all(map(is_allowed, channels)) or metas != sorted(metas, reverse=True):
        return 4
    return 5 if total(channels) > MAX_SAMPLES else 0


def take_step(step, channels):
    return rules.step(channels, *step)


def judge_step(step, channels):
    try:
        take_step(step, channels)
        return 0
    except rules.Refused as refusal:
        return refusal.args[0]


# ---- a list as flat arrays hold it: a count, entries of which those past the count mean nothing, and origins, zeros where none are given
def held(channels, unused=(), count=None, origins=()):
    return (len(channels) if count is None else count, list(channels) + list(unused), list(origins))


def origins_of(flat):
    count, _, origins = flat
    return (origins + [0] * MAX_CHANNELS)[:min(count, MAX_CHANNELS)]


def meant(flat):
    count, entries, _ = flat
    return (entries + [(0, 0, 0, 0)] * MAX_CHANNELS)[:min(count, MAX_CHANNELS)]


def judge_flat(flat):
    return judge_list(meant(flat)) if flat[0] <= MAX_CHANNELS else 3


# ---- a plan as flat arrays hold it: a count, and (flags, first, number) entries
def plan_of(steps, unused=(), count=None):
    return (len(steps) if count is None else count, [(h + 2 * i, f, n) for h, i, f, n in steps] + list(unused))


def meant_plan(flat, plan, version=1):
    """The answer to questions 3 to 6, and the plan that is meant."""
    count, entries = plan
    channels = meant(flat)
    form = judge_flat(flat)
    if form == 3 or count > MAX_STEPS:
        return 3, plan_of([])
    if form == 4 or version not in STOPS or any(flags > 3 for flags, _, _ in entries[:count]):
        return 4, plan_of([])
    if form:
        return form, plan_of([])
    if count == 0 and all(is_meta(c) for c in channels):
        return 11, plan_of([])
    return 0, plan if count else plan_of(default_plan(channels, version))


def judge_plan(flat, plan, version=1):
    """The answer to questions 3 to 11, and the list that the plan leaves."""
    answer, (count, entries) = meant_plan(flat, plan, version)
    if answer:
        return answer, flat
    channels = meant(flat)
    steps = [(flags % 2, flags // 2, f, n) for flags, f, n in entries[:count]]
    for step in steps:
        answer = judge_step(step, channels)
        if answer:
            return answer, flat
        channels = take_step(step, channels)
    return 0, held(channels, origins=plan_origins(meant(flat), steps))


# ---- the stream
cases = {}


def put(source, kind, *parts):
    samples = [x for part in parts for x in part]
    assert 4 * len(samples) <= PROGRAM_ROOM
    cases.setdefault((source, kind), {}).setdefault(struct.pack('<%dI' % (len(samples) + 1), 4 * len(samples), *samples))


def array_samples(arrays, zeros, size):
    count, entries = arrays
    entries = entries + [zeros] * (size - len(entries))
    written = size
    while written > 1 and entries[written - 1] == entries[written - 2]:
        written -= 1
    return [count, written] + [x for entry in entries[:written] for x in entry]


def list_samples(flat):
    count, entries, origins = flat
    size = max(len(entries), len(origins))
    entries = entries + [(0, 0, 0, 0)] * (size - len(entries))
    origins = origins + [0] * (size - len(origins))
    merged = [(w, h, hs + 256 * vs + 65_536 * o) for (w, h, hs, vs), o in zip(entries, origins)]
    return array_samples((count, merged), (0, 0, 0), MAX_CHANNELS)


def plan_samples(plan):
    return array_samples(plan, (0, 0, 0), MAX_STEPS)


def put_step(source, flat, step, answer, after):
    put(source, STEP, list_samples(flat), step, [answer], [] if answer else list_samples(after))


def put_plan(source, flat, plan, answer, after, version=1):
    put(source, PLAN, [version], list_samples(flat), plan_samples(plan), [answer], [] if answer else list_samples(after))


def put_default(source, flat, answer, plan, version=1):
    put(source, DEFAULT, [version], list_samples(flat), [answer], plan_samples(plan))


def put_meant(flat, plan, source=OWN, version=1):
    answer, steps = meant_plan(flat, plan, version)
    put(source, MEANT, [version], list_samples(flat), plan_samples(plan), [answer], plan_samples(steps))


def put_coarse(flat, source=OWN, version=1):
    """Nothing but the version is judged."""
    known = version in STOPS
    put(source, COARSE, [version], list_samples(flat), [0, coarse_count(meant(flat), version)] if known else [4, 0])


# ---- the Rust's answers
REFUSALS = {'InvalidChannelRange': 6, 'MixingDifferentChannels': 7, 'MetaSqueezeRequiresInPlace': 8,
            'TooManySqueezes': 9}

# Where document 01 refuses and the Rust does not: the refusal, the difference, and which calls it concerns.
INSTEAD = {
    5: ('samples above the limit; the Rust has `TransformLimits`', lambda channels: total(channels) > MAX_SAMPLES),
    6: ('number 0; the Rust behaves in several ways', lambda channels, step: step[3] == 0),
    10: ('a shift above 30; the Rust lets 31 through', lambda channels, step: judge_step(step, channels) == 10),
    11: ('a default plan without a plain channel; the Rust panics', lambda channels: all(map(is_meta, channels))),
}
adjusted = dict.fromkeys(INSTEAD, 0)


def instead(number, *call):
    """`number` if document 01 gives that refusal to the call where the Rust does not, else 0."""
    if not INSTEAD[number][1](*call):
        return 0
    adjusted[number] += 1
    return number


def channels_of(text):
    words = [channel.split() for channel in text.split(';')] if text.strip() else []
    return [(int(w), int(h), META if hs == 'm' else int(hs), META if vs == 'm' else int(vs)) for w, h, hs, vs in words]


def steps_of(text):
    words = [step.split() for step in text.split(';')] if text.strip() else []
    return [(int(d == 'h'), int(place == 'in'), int(first), int(number)) for d, place, first, number in words]


def rust_list(text):
    call, answers = text.removeprefix('list ').split('=>')
    start, steps = call.split('|')
    start, steps = channels_of(start), steps_of(steps)
    channels, answer = start, 0
    for step, said in zip(steps, answers.strip().removeprefix('ok').split('/')):
        refused = REFUSALS[said.split()[1]] if said.split()[0] == 'error' else 0
        answer = instead(5, channels) or instead(6, channels, step) or refused or instead(10, channels, step)
        after = channels if answer else channels_of(said)
        put_step(RUST, held(channels), step, answer, held(after))
        if answer:
            break
        channels = after
    after = held(start) if answer else held(channels, origins=plan_origins(start, steps))
    put_plan(RUST, held(start), plan_of(steps), answer, after)
    if not answer:
        put_coarse(held(channels))


def rust_default(text):
    call, said = text.removeprefix('default ').split('=>')
    channels, said = channels_of(call), said.strip()
    answer = instead(5, channels) or said == 'panic' and instead(11, channels)
    steps = [] if answer else steps_of(said.removeprefix('ok'))
    put_default(RUST, held(channels), answer, plan_of(steps))


# A channel is coarse if the Rust's predicate says so: the count of that channel alone.
def rust_small(text):
    channel, said = text.removeprefix('small ').split('=>')
    put(RUST, COARSE, [1], list_samples(held(channels_of(channel))), [0, {'true': 1, 'false': 0}[said.strip()]])


# ---- cases of our own, by the rules above
def own_step(flat, step, source=OWN):
    channels = meant(flat)
    answer = judge_flat(flat) or judge_step(step, channels)
    after = flat if answer else held(take_step(step, channels), origins=step_origins(origins_of(flat), *step))
    put_step(source, flat, step, answer, after)
    return answer


def own_plan(flat, plan):
    answer, after = judge_plan(flat, plan)
    put_plan(OWN, flat, plan, answer, after)
    if not answer:
        put_coarse(after)
    return answer


def own_default(flat):
    channels = meant(flat)
    answer = judge_flat(flat) or (11 if all(map(is_meta, channels)) else 0)
    put_default(OWN, flat, answer, plan_of([] if answer else default_plan(channels)))
    own_plan(flat, plan_of([]))
    return answer


# Channels, a step, the answer and why; `N *` repeats a channel.
STEP_ROWS = """
4 4 29 0                           | h in 0 1        | 0  | a shift of 30
4 4 30 0                           | h in 0 1        | 10 | a shift of 31
4 4 0 30                           | v out 0 1       | 10 | a shift of 31
4 4 30 0                           | v in 0 1        | 0  | the other shift stays
6 5 0 0 ; 4 4 30 0                 | h in 0 2        | 10 | the last channel of the range counts
4 4 31 0                           | v in 0 1        | 4  | a shift of 31 comes in
4 4 m 0                            | h in 0 1        | 4  | meta in one direction only
1 1 254 m                          | h in 0 1        | 4  | one more would make it meta
7 3 m m                            | h in 0 1        | 0  | meta stays meta
255 * 2 2 0 0                      | h in 0 1        | 0  | 256 channels
256 * 2 2 0 0                      | h in 0 1        | 10 | 257 channels
128 * 2 2 0 0                      | v out 0 128     | 0  | 256 channels
129 * 2 2 0 0                      | v out 0 128     | 10 | 257 channels
257 * 2 2 0 0                      | h in 0 1        | 3  | 257 channels come in
300 * 2 2 0 0                      | h in 299 1      | 3  | 3 before 6
                                   | h in 0 1        | 3  | no channel comes in
3 * 6 5 0 0                        | h in 1 2        | 0  | the range ends at the count
3 * 6 5 0 0                        | h in 1 3        | 6  | it ends past the count
3 * 6 5 0 0                        | h in 3 1        | 6  | it starts at the count
3 * 6 5 0 0                        | h in 65535 65535 | 6 | its end needs 17 bits
3 * 6 5 0 0                        | h in 0 0        | 6  | number 0
3 * 6 5 0 0                        | h in 3 0        | 6  | number 0 at the count
0 5 0 0                            | v in 0 1        | 9  | side 0
5 0 0 0                            | v in 0 1        | 9  | side 0
1 1 0 0                            | h in 0 1        | 0  | side 1: a residual of side 0
2 2 0 0                            | v in 0 1        | 0  | side 2
6 5 0 0 ; 0 5 0 0                  | h in 0 1        | 0  | side 0 outside the range
7 3 m m ; 7 3 m m                  | v in 0 2        | 0  | a meta range
7 3 m m ; 6 5 0 0                  | h in 0 2        | 7  | a range across the kinds
7 3 m m ; 6 5 0 0                  | h out 0 1       | 8  | a meta range not in place
6 5 0 0 ; 7 3 m m                  | h in 0 1        | 4  | a meta channel after a plain one
4096 4096 0 0                      | h in 0 1        | 0  | samples at the limit
4096 4096 0 0 ; 1 1 0 0            | h in 0 1        | 5  | one sample more
1 1 m m ; 4096 4096 0 0            | h in 1 1        | 5  | meta samples count
256 * 65535 65535 0 0              | h in 0 1        | 5  | a large sum
65535 1 0 0                        | h in 0 1        | 0  | the largest side of tag 1
65536 1 0 0                        | h in 0 1        | 0  | a strip
1 65536 29 0                       | h out 0 1       | 0  | a strip across
1048575 16 0 0                     | v in 0 1        | 0  | the largest strip
16 1048575 0 0                     | v in 0 1        | 0  | and across
1048575 1 m m                      | h in 0 1        | 0  | a meta strip
1048575 17 0 0                     | h in 0 1        | 5  | a strip of too many samples
65536 65536 0 0                    | h in 0 1        | 5  | a product of 33 bits
256 * 1048575 1048575 0 0          | h in 0 1        | 5  | the largest sum
1048576 1 0 0                      | h in 0 1        | 4  | a side above the limit
1 1048576 0 0                      | v out 0 1       | 4  | a side above the limit
1048576 1 m m                      | h in 0 1        | 4  | a meta side above the limit
1048576 0 0 0                      | h in 0 1        | 4  | a side above the limit of no sample
4294967295 1 0 0                   | h in 0 1        | 4  | the largest number
6 5 0 0 ; 4294967295 4294967295 0 0 | h in 0 1       | 4  | 4 before 5, outside the range
256 * 4294967295 4294967295 0 0    | h in 0 1        | 4  | sums past 64 bits
257 * 1048576 1 0 0                | h in 0 1        | 3  | 3 before 4
65536 0 0 0                        | h in 0 1        | 9  | a strip of no sample
65536 1 30 0                       | h in 0 1        | 10 | a strip's shift of 31
257 * 4 4 31 0                     | h in 0 1        | 3  | 3 before 4
4 4 31 0 ; 65535 65535 0 0         | h in 0 1        | 4  | 4 before 5
65535 65535 0 0                    | h in 0 0        | 5  | 5 before 6
7 3 m m ; 6 5 0 0                  | h out 0 3       | 6  | 6 before 7 and 8
7 3 m m ; 0 5 0 0                  | h out 0 2       | 7  | 7 before 8 and 9
0 3 m m                            | h out 0 1       | 8  | 8 before 9
0 4 30 0                           | h in 0 1        | 9  | 9 before 10
256 * 0 4 0 0                      | h in 0 256      | 9  | 9 before 10
"""


def row_channels(text):
    times, star, channel = text.rpartition('*')
    channels = channels_of(channel) * int(times or 1)
    return held(channels[:MAX_CHANNELS], count=len(channels))


def step_rows():
    for row in STEP_ROWS.strip('\n').split('\n'):
        channels, step, answer, why = row.split('|')
        assert own_step(row_channels(channels), steps_of(step)[0]) == int(answer), why


plain, wide, tall, meta, late = (6, 5, 0, 0), (9, 4, 1, 0), (4, 9, 0, 1), (7, 3, META, META), (600, 9, 25, 0)
junk = [(4294967295, 0, 31, 255), (3, 9, 0, 0), (0, 65535, 255, 255)] + [(65535, 1048576, 255, 1)] * MAX_CHANNELS


def plan_rows():
    many = held([(2, 2, 0, 0)] * 64)
    steps = [(k % 2, 0, k, 1) for k in range(64)]
    unused = [(255, 65535, 65535)]
    two = held([plain, wide])
    for why, flat, plan, answer in (
            ('64 steps', many, plan_of(steps), 0),
            ('65 steps', many, plan_of(steps, count=65), 3),
            ('no channel', held([]), plan_of([]), 3),
            ('more steps than 16 bits hold', many, plan_of(steps, count=2147483647), 3),
            ('an unused step of any value', many, plan_of(steps[:63], unused), 0),
            ('the same step in use', many, plan_of(steps[:63], unused, count=64), 4),
            ('the last step past the count', many, plan_of(steps[:63] + [(1, 0, 127, 1)]), 6),
            ('the last step at the count', many, plan_of(steps[:63] + [(1, 0, 126, 1)]), 0),
            ('no step in use: the default plan', many, plan_of([], unused * 64), 0),
            ('every flag', two, (2, [(3, 0, 1), (3, 1, 1)]), 0),
            ('flag bit 2', two, (2, [(3, 0, 1), (4, 1, 1)]), 4),
            ('flag bit 7', two, (2, [(131, 0, 1), (0, 1, 1)]), 4),
            ('a residual of side 0 is stepped', held([(1, 1, 0, 0)]), plan_of([(1, 1, 0, 1), (1, 1, 1, 1)]), 9),
            ('3 of the steps before 4', held([plain, meta]), plan_of(steps, count=65), 3),
            ('4 of the steps before 5', held([(65535, 65535, 0, 0)]), (1, [(4, 0, 1)]), 4),
            ('5 before 11', held([(65535, 65535, META, META)]), plan_of([]), 5),
            ('the default plan of one meta channel', held([meta]), plan_of([]), 11),
            ('the default plan without a plain channel', held([meta] * 3), plan_of([]), 11),
            ('a plan of one meta channel', held([meta]), plan_of([(1, 1, 0, 1)]), 0),
            ('a plan without a plain channel', held([meta] * 3), plan_of([(1, 1, 0, 3)]), 0),
            ('the default plan meets a side 0', held([(20, 20, 0, 0), (0, 5, 0, 0)]), plan_of([]), 9),
            ('the default plan meets a shift of 31', held([late]), plan_of([]), 10),
            ('the default plan meets 257 channels', held([(9, 9, 0, 0)] * 85), plan_of([]), 10),
            ('the default plan meets 256 channels', held([(9, 9, 0, 0)] * 64), plan_of([]), 0)):
        assert own_plan(flat, plan) == answer, why
        put_meant(flat, plan)


# Channels, steps (none: the default plan) and the coarse count of the list that they leave (document 02, A.2).
COARSE_ROWS = """
300 1 m m ; 20 9 0 0               |                     | 3 | a palette of any size, and the averages after it
300 1 m m ; 40 2 m m ; 20 9 0 0    | h in 1 1            | 3 | a meta channel's residual is meta
300 1 m m ; 40 2 m m               | h in 0 1 ; v in 2 1 | 4 | only meta channels
65535 1 m m ; 1 65535 m m          | h in 0 2            | 4 | of the largest sides
20 9 0 0                           |                     | 2 | no meta channel
20 9 0 0 ; 1 1 0 0                 |                     | 4 | coarse channels after the first large one are not counted
300 1 m m ; 20 9 0 0 ; 1 1 0 0     |                     | 5 | with a palette neither
300 1 m m ; 9 1 0 0                | h in 0 1            | 2 | it ends at the first other channel with a side above 8
300 1 m m ; 1 9 0 0                | h in 0 1            | 2 | in either direction
9 9 m m ; 8 8 0 0                  |                     | 2 | the whole list
"""


def coarse_rows():
    for row in COARSE_ROWS.strip('\n').split('\n'):
        channels, steps, count, why = row.split('|')
        flat, plan = held(channels_of(channels)), plan_of(steps_of(steps))
        answer, after = judge_plan(flat, plan)
        assert (answer, coarse_count(meant(after))) == (0, int(count)), why
        own_plan(flat, plan)
        put_coarse(flat)


def sweeps():
    # every shift about the limit and about 255, each direction and place
    for shift in (28, 29, 30, 31, 32, 254, 255):
        for channel in ((4, 4, shift, 0), (4, 4, 0, shift), (4, 4, shift, shift)):
            for horizontal in (0, 1):
                own_step(held([channel]), (horizontal, 1, 0, 1))
                own_step(held([plain, plain, channel]), (horizontal, 0, 0, 3))
            own_default(held([plain, channel]))

    # every range of some lists, each direction and place
    for channels in ([plain], [plain, wide, tall], [meta, meta, wide, tall], [meta] * 3):
        for first in range(len(channels) + 2):
            for number in range(len(channels) + 2):
                for k in range(4):
                    own_step(held(channels), (k % 2, k // 2, first, number))

    # sides 0, 1, 2 and about the stopping side, and the residuals that they leave
    for w in (0, 1, 2, 3, 8, 9):
        for h in (0, 1, 2, 3, 8, 9):
            for k in range(4):
                own_step(held([plain, (w, h, 0, 0)]), (k % 2, k // 2, 0, 2))
            own_plan(held([(w, h, 0, 0)]), plan_of([(1, 1, 0, 1), (1, 0, 1, 1), (0, 1, 0, 2)]))
            own_default(held([(w, h, 0, 0)]))

    # unused entries of any value: they change no answer, a step leaves zeros, a refusal leaves them
    for channels in ([], [plain], [meta, plain, wide], [plain] * 255, [meta]):
        flat = held(channels, junk[:MAX_CHANNELS - len(channels)])
        own_step(flat, (1, 1, 0, 1))
        own_step(flat, (0, 0, 0, 1))
        own_step(flat, (0, 1, len(channels), 1))
        own_plan(flat, plan_of([(1, 1, 0, 1), (0, 0, 0, 1)], [(255, 65535, 65535)] * 62))
        own_default(flat)
        put_coarse(flat)

    # default plans: chroma or not, meta channels before, second channels that differ, counts, sides up to the largest
    sizes = ((1, 1), (1, 9), (9, 1), (2, 2), (8, 8), (8, 9), (9, 8), (9, 9), (17, 16), (65535, 1), (1, 65535), (300, 4000),
             (65536, 1), (5, 1048575))
    for w, h in sizes:
        first, wider, taller = (w, h, 0, 0), (w % 65535 + 1, h, 0, 0), (w, h % 65535 + 1, 0, 0)
        for others in ([], [first], [first] * 2, [first, tall], [wider] * 2, [taller] * 2, [tall, first]):
            own_default(held([first] + others))
        own_default(held([meta] * 2 + [first] * 3))
    for w, h in ((1048575, 16), (16, 1048575), (1048575, 17), (1048576, 1), (1, 4294967295), (65536, 0), (0, 1048575), (4097, 4095)):
        own_default(held([(w, h, 0, 0)]))
    longest = (4097, 2047, 0, 0)
    assert len(default_plan([longest, longest, (1, 1, 0, 0)])) == 20
    own_default(held([longest, longest, (1, 1, 0, 0)]))
    for count in (0, 1, 128, 255, 256, 257, 2147483647):
        own_default(held([(9, 9, 0, 0)] * min(count, MAX_CHANNELS), count=count))
        put_coarse(held([(8, 8, 0, 0)] * min(count, MAX_CHANNELS), count=count))
    own_default(held([meta] * 255 + [(9, 9, 0, 0)]))

    # meta channels about and above the stopping side, before, between and after others: any list has a coarse count
    large, small = (300, 1, META, META), (8, 8, 0, 0)
    for front in ([], [meta], [large], [large, (9, 9, META, META)], [small, large], [(8, 9, 0, 0), large], [(8, 9, 255, 0)]):
        for rest in ([], [small], [(9, 8, 3, 3)], [(8, 9, 3, 3), small], [large, (9, 0, 0, 0)]):
            put_coarse(held(front + rest))
    put_coarse(held([large] * 256))
    put_coarse(held([large] * 255 + [(9, 9, 0, 0)]))


# Versions (document 02, A.11): a list, steps (none: the default plan), a version, the answer, the steps and the coarse
# count that they leave.
VERSION_ROWS = """
32 32 0 0                          |                     | 2 | 0  | 0 | 1 | no side above 32
33 32 0 0                          |                     | 2 | 0  | 1 | 2 | one
33 33 0 0                          |                     | 2 | 0  | 2 | 2 | two
65 64 0 0                          |                     | 2 | 0  | 3 | 2 | above 64
32 32 0 0                          |                     | 1 | 0  | 4 | 2 | version 1 goes on to 8
9 9 0 0 ; 9 9 0 0 ; 9 9 0 0        |                     | 2 | 0  | 0 | 3 | no chroma steps
9 9 0 0 ; 9 9 0 0 ; 9 9 0 0        |                     | 1 | 0  | 4 | 6 | chroma steps
300 1 m m ; 33 9 0 0               |                     | 2 | 0  | 1 | 3 | a meta channel first
20 20 0 0                          | h in 0 1            | 2 | 0  | 1 | 2 | steps of its own, by version 2's side
20 20 0 0                          | h in 0 1            | 1 | 0  | 1 | 0 | by version 1's
7 3 m m                            |                     | 2 | 11 | 0 | 0 | no other channel
20 20 0 0                          |                     | 0 | 4  | 0 | 0 | no version
20 20 0 0                          |                     | 3 | 4  | 0 | 0 | no version
20 20 0 0                          | h in 0 1            | 3 | 4  | 0 | 0 | no version with steps
20 20 0 0                          |                     | 4294967295 | 4 | 0 | 0 | the largest number
20 20 0 0                          |                     | 65538 | 4 | 0 | 0 | 2 if it were cut
                                   |                     | 3 | 3  | 0 | 0 | 3 before 4
20 20 0 0 ; 7 3 m m                |                     | 3 | 4  | 0 | 0 | 4 for two causes
65535 65535 0 0                    |                     | 3 | 4  | 0 | 0 | 4 before 5
7 3 m m                            |                     | 3 | 4  | 0 | 0 | 4 before 11
20 20 0 0                          | h in 0 2            | 3 | 4  | 0 | 0 | 4 before 6
"""


def of_version(flat, plan, version):
    """The default plan where there are no steps, the steps meant, the list left and its coarse count."""
    answer, after = judge_plan(flat, plan, version)
    put_plan(VERSIONS, flat, plan, answer, after, version)
    put_meant(flat, plan, VERSIONS, version)
    put_coarse(after, VERSIONS, version)
    if plan[0] == 0:
        put_default(VERSIONS, flat, *meant_plan(flat, plan, version), version)
    return answer, meant_plan(flat, plan, version)[1][0], 0 if answer else coarse_count(meant(after), version)


def version_rows():
    for row in VERSION_ROWS.strip('\n').split('\n'):
        channels, steps, version, *expected, why = row.split('|')
        found = of_version(held(channels_of(channels)), plan_of(steps_of(steps)), int(version))
        assert found == tuple(map(int, expected)), (why, found)


def version_sweeps():
    for w, h in [(w, h) for w in (31, 32, 33) for h in (31, 32, 33)] + [(w, h) for w in (64, 65) for h in (64, 65)]:
        for channels in ([(w, h, 0, 0)], [(w, h, 0, 0)] * 3, [meta] + [(w, h, 0, 0)] * 4):
            for version in (1, 2):
                of_version(held(channels), plan_of([]), version)
    for flat in (held([(4097, 2049, 0, 0)]), held([(1048575, 16, 0, 0)]), held([(9, 9, 0, 0)] * 257, count=257), held([plain], junk[:255])):
        for version in (0, 1, 2, 3, 2147483648):
            of_version(flat, plan_of([]), version)
            put_coarse(flat, VERSIONS, version)


# Origins (document 02, A.4): lists that come with any origins, steps (none: the default plan) and the origins that a
# plan leaves, or the refusal's number.
ORIGIN_ROWS = """
4 4 0 0                                  |                       | 0                       | no step
20 9 0 0                                 |                       | 0 0 0 0                 | all of one channel
4 4 0 0 ; 4 4 0 0 ; 4 4 0 0              | h in 0 1              | 0 0 1 2                 | in place: those behind move on
4 4 0 0 ; 4 4 0 0 ; 4 4 0 0              | h out 0 2             | 0 1 2 0 1               | not in place: residuals at the end
4 4 0 0 ; 4 4 0 0 ; 4 4 0 0              | v in 1 2              | 0 1 2 1 2               | a range at the end
4 4 0 0 ; 4 4 0 0                        | h in 0 1 ; h in 1 1   | 0 0 0 1                 | a residual of a residual
4 4 0 0 ; 4 4 0 0                        | h out 0 2 ; v out 3 1 ; v in 4 1 | 0 1 0 1 1 1  | and at the end of the list
4 4 0 0 ; 4 4 0 0 ; 4 4 0 0              | h in 0 1 ; h in 1 1 ; v out 3 1 | 0 0 0 1 2 1   | all three
7 3 m m ; 9 9 0 0                        | h in 0 1 ; v in 2 1   | 0 0 1 1                 | a meta channel
7 3 m m ; 7 3 m m ; 4 4 0 0              | v in 0 2              | 0 1 0 1 2               | a meta range
9 9 0 0 ; 9 9 0 0 ; 9 9 0 0              |                       | 0 1 2 0 1 2 0 1 2 1 2 1 2 | chroma steps first
4 4 0 0 ; 4 4 0 0                        | h in 0 1 ; h in 4 1   | 6                       | a refused plan
4 4 31 0                                 | h in 0 1              | 4                       | a refused list
"""

FOREIGN = (list(range(3)), [0] * 256, [255] * 256, list(range(255, -1, -1)), [7, 7, 200, 3, 0, 91] * 43)


def origin_rows():
    for row in ORIGIN_ROWS.strip('\n').split('\n'):
        channels, steps, expected, why = row.split('|')
        channels, plan, expected = channels_of(channels), plan_of(steps_of(steps)), list(map(int, expected.split()))
        for origins in FOREIGN:
            flat = held(channels, origins=origins[:len(channels)])
            answer, after = judge_plan(flat, plan)
            assert [answer] == expected if answer else origins_of(after) == expected, (why, answer, after)
            put_plan(ORIGINS, flat, plan, answer, after)


def origin_sweeps():
    # every range of some lists, each direction and place, from any origins, junk past the count among them
    for channels in ([plain, wide, tall], [meta, meta, wide, tall]):
        for first in range(len(channels) + 1):
            for number in range(len(channels) + 1):
                for k in range(4):
                    for origins in FOREIGN[2:]:
                        own_step(held(channels, origins=origins), (k % 2, k // 2, first, number), ORIGINS)
    # 128 channels squeezed to 256, in place and not, and one too many
    for number in (128, 127, 129):
        for inplace in (0, 1):
            for first in (0, 1):
                step = (1, inplace, first, number)
                own_step(held([(2, 2, 0, 0)] * 128, origins=FOREIGN[3][:128]), step, ORIGINS)
                put_plan(ORIGINS, held([(2, 2, 0, 0)] * 128), plan_of([step]), *judge_plan(held([(2, 2, 0, 0)] * 128), plan_of([step])))


# Random plans: each step is one that the list takes or, at times, any. By A.4, "for each origin, the samples of all its
# channels total the samples of the original".
def random_plans():
    random = Random(4)
    for _ in range(200):
        metas = random.randrange(3)
        start = [(random.randrange(1, 40), random.randrange(1, 40), META, META) for _ in range(metas)]
        start += [(random.randrange(1, 40), random.randrange(1, 40), random.randrange(3), 0) for _ in range(random.randrange(1, 5))]
        channels, steps = start, []
        for _ in range(random.randrange(1, 12)):
            first = random.randrange(len(channels))
            step = (random.randrange(2), random.randrange(2), first, random.randrange(1, min(4, len(channels) - first) + 1))
            if judge_step(step, channels) == 0:
                steps.append(step)
                channels = take_step(step, channels)
            elif random.randrange(12) == 0:
                steps.append(step)
                break
        flat = held(start, origins=[random.randrange(256) for _ in start])
        answer, after = judge_plan(flat, plan_of(steps))
        put_plan(ORIGINS, flat, plan_of(steps), answer, after)
        if answer == 0:
            origins = origins_of(after)
            for o, c in enumerate(start):
                assert total([d for d, of in zip(meant(after), origins) if of == o]) == total([c])


if __name__ == '__main__':
    for path, rust_case in zip(sys.argv[1:], (rust_list, rust_default, rust_small), strict=True):
        for text in open(path):
            rust_case(text)
    step_rows()
    plan_rows()
    coarse_rows()
    sweeps()
    version_rows()
    version_sweeps()
    origin_rows()
    origin_sweeps()
    random_plans()
    assert sorted(cases) == sorted(SAYS)
    for source, kind in SAYS:
        sys.stdout.buffer.write(struct.pack('<I', len(cases[source, kind])) + b''.join(cases[source, kind]))
        print('%s, %s %d' % (source, kind, len(cases[source, kind])), file=sys.stderr)
    for number, count in adjusted.items():
        print('refusal %d instead of the Rust in %d cases: %s' % (number, count, INSTEAD[number][0]), file=sys.stderr)
