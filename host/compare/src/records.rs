//! Records for comparisons: ordinary ones, ones at a limit, damaged ones.

use crate::lists::model_step;
use crate::random::Random;
use squeeze::{Record, Step};
use squeeze_model::list::{self, Channel};

/// Sides around the places where something changes: nothing, one, the end of a
/// block of eight, the default plan's stop.
pub const SIDES: [u32; 12] = [0, 1, 2, 3, 5, 7, 8, 9, 15, 16, 17, 31];

/// Sides around the longest of tag 1, around the longest of all, and the largest
/// number.
pub const LONG_SIDES: [u32; 7] = [
    65_535,
    65_536,
    65_537,
    1_048_574,
    1_048_575,
    1_048_576,
    u32::MAX,
];

/// Sides around the stops of both versions' default plans.
const STOPS: [u32; 8] = [8, 9, 31, 32, 33, 63, 64, 65];

/// The field that says version 2.
pub const HOUSE: [u8; 4] = [4, 1, 0, 2];

/// Numbers that a step's range may hold at a limit.
const ENDS: [u16; 9] = [0, 1, 2, 3, 254, 255, 256, 65_534, 65_535];

/// Some record: ordinary, at a limit, or any bytes; some of them damaged.
pub fn some(random: &mut Random) -> Vec<u8> {
    let mut bytes = match random.below(20) {
        0..=8 => ordinary(random),
        9 => many_channels(random),
        10 => many_steps(random),
        11 => high_shifts(random),
        12 => many_samples(random),
        13 => only_meta(random),
        14 => mixed_form(random),
        15..=16 => strips(random),
        17..=18 => versions(random),
        _ => (0..random.below(24)).map(|_| random.bits() as u8).collect(),
    };
    if random.once_in(10) {
        bytes.splice(..0, HOUSE);
    }
    for _ in 0..random.pick(&[0, 0, 0, 0, 1, 1, 2]) {
        damage(random, &mut bytes);
    }
    bytes
}

/// Meta channels, others, and steps that mostly fit.
pub fn ordinary(random: &mut Random) -> Vec<u8> {
    let mut record = Record::new();
    let mut channels = Vec::new();
    for _ in 0..random.pick(&[0, 0, 0, 1, 2]) {
        channels.push(channel(random, true));
    }
    let like = channel(random, false);
    for _ in 0..random.pick(&[1, 1, 2, 3, 3, 4, 6]) {
        let other = channel(random, false);
        channels.push(if random.once_in(3) { other } else { like });
    }
    for c in &channels {
        record = add(record, c);
    }
    let number = random.pick(&[0, 0, 1, 2, 3, 5, 9]);
    steps(random, record, channels, number)
}

fn channel(random: &mut Random, meta: bool) -> Channel {
    // An empty side ends most plans, so it is rarer than the others.
    let side = |random: &mut Random| match random.pick(&SIDES) {
        0 if !random.once_in(4) => 9,
        side => side,
    };
    Channel {
        width: side(random),
        height: side(random),
        shifts: (!meta).then(|| (random.below(3) as u8, random.below(3) as u8)),
    }
}

fn add(record: Record, channel: &Channel) -> Record {
    record.add_channel(squeeze::Channel {
        width: channel.width,
        height: channel.height,
        shifts: channel.shifts,
    })
}

/// A field of tag 3 with any sides and shifts; no sound record has it for a
/// channel that fits tag 1.
pub fn strip_field(width: u32, height: u32, hshift: u8, vshift: u8) -> Vec<u8> {
    let (width, height) = (width.to_le_bytes(), height.to_le_bytes());
    [&[3, 10, 0], &width[..], &height, &[hshift, vshift]].concat()
}

/// Adds steps, most of which fit the list as it then is.
fn steps(random: &mut Random, record: Record, list: Vec<Channel>, number: usize) -> Vec<u8> {
    let mut record = record;
    let mut list = list;
    for _ in 0..number {
        let step = step(random, &list);
        record = record.step(step);
        if let Ok(next) = list::take_step(&list, &model_step(&step)) {
            list = next;
        }
    }
    record.bytes().to_vec()
}

fn step(random: &mut Random, list: &[Channel]) -> Step {
    let first = random.below(list.len());
    let number = 1 + random.below((list.len() - first).min(4));
    let mut step = Step {
        horizontal: random.once_in(2),
        in_place: list[first].meta() || random.once_in(2),
        first: first as u16,
        number: number as u16,
    };
    match random.below(40) {
        0 => step.first = random.pick(&ENDS),
        1 => step.number = random.pick(&ENDS),
        2 => step.number = (list.len() - first) as u16 + random.below(2) as u16,
        3 => step.in_place = false,
        _ => {}
    }
    step
}

/// Around 256 channels, before or after the plan.
fn many_channels(random: &mut Random) -> Vec<u8> {
    let number = random.pick(&[127, 128, 129, 253, 254, 255, 256, 257]);
    let side = random.pick(&[1, 1, 2, 9, 65_536]);
    let one = Channel {
        width: side,
        height: 1,
        shifts: Some((0, 0)),
    };
    let record = (0..number).fold(Record::new(), |record, _| add(record, &one));
    let list = vec![one; number];
    let mut record = record;
    for _ in 0..random.below(4) {
        let step = match random.below(3) {
            0 => Step {
                first: 0,
                number: number as u16,
                ..step(random, &list)
            },
            _ => step(random, &list),
        };
        record = record.step(step);
    }
    record.bytes().to_vec()
}

/// 64 or 128 channels, and steps on many of them that leave 256, residuals squeezed
/// too: all in place, none, or some.
pub fn doubled(random: &mut Random) -> Vec<u8> {
    let mut count = random.pick(&[64, 128]);
    let place = random.below(3);
    // Six steps on sides of 64 leave no side empty.
    let like = random.pick(&[64, 65, 100]);
    let mut record = (0..count).fold(Record::new(), |record, _| record.channel(like, 64));
    while count < 256 {
        let number = random.pick(&[32, 64, 128]).min(count).min(256 - count);
        record = record.step(Step {
            horizontal: random.once_in(2),
            in_place: place == 0 || (place == 2 && random.once_in(2)),
            first: random.below(count - number + 1) as u16,
            number: number as u16,
        });
        count += number;
    }
    record.bytes().to_vec()
}

/// 63 to 66 steps, on sides that become 1 or 0.
fn many_steps(random: &mut Random) -> Vec<u8> {
    let number = random.pick(&[62, 63, 64, 65, 66]);
    let side = random.pick(&SIDES);
    // Steps on a meta channel never meet a highest shift.
    let mut record = match random.below(2) {
        0 => Record::new().channel(side, 9),
        _ => Record::new().meta_channel(side, 3),
    };
    for _ in 0..number {
        record = record.step(Step {
            horizontal: random.once_in(2),
            in_place: random.once_in(2),
            first: 0,
            number: 1,
        });
    }
    record.bytes().to_vec()
}

/// Shifts 28 to 31 with steps, and 254, 255 alone.
fn high_shifts(random: &mut Random) -> Vec<u8> {
    let mut record = Record::new();
    for _ in 0..1 + random.below(3) {
        let shift = |random: &mut Random| random.pick(&[0, 28, 29, 30, 30, 30, 31, 254, 255]);
        let (h, v) = (shift(random), shift(random));
        record = record.shifted_channel(9, 9, h, v);
    }
    for _ in 0..random.below(4) {
        record = record.step(Step {
            horizontal: random.once_in(2),
            in_place: random.once_in(2),
            first: random.below(2) as u16,
            number: 1,
        });
    }
    record.bytes().to_vec()
}

/// Totals at, just under and just above 16,777,216.
fn many_samples(random: &mut Random) -> Vec<u8> {
    let (width, height) = random.pick(&[
        (4096, 4096),
        (65_535, 256),
        (256, 65_535),
        (4097, 4095),
        (65_535, 65_535),
        (65_536, 256),
        (1_048_575, 16),
        (16, 1_048_575),
        (1_048_575, 17),
        (65_536, 65_536),
        (1_048_575, 1_048_575),
    ]);
    let mut record = Record::new().channel(width, height);
    for _ in 0..random.below(3) {
        record = record.channel(random.pick(&[0, 1, 16, 255]), random.pick(&[1, 16]));
    }
    if random.once_in(2) {
        record = record.step(Step {
            horizontal: true,
            in_place: random.once_in(2),
            first: 0,
            number: random.pick(&[1, 1, 2, 4]),
        });
    }
    record.bytes().to_vec()
}

fn only_meta(random: &mut Random) -> Vec<u8> {
    let mut record = Record::new();
    let mut channels = Vec::new();
    for _ in 0..1 + random.below(3) {
        let c = channel(random, true);
        record = add(record, &c);
        channels.push(c);
    }
    let number = random.below(3);
    steps(random, record, channels, number)
}

/// Strips among other channels, meta or not, a few with the wrong tag, and steps
/// that mostly fit.
fn strips(random: &mut Random) -> Vec<u8> {
    let mut channels = Vec::new();
    for _ in 0..random.pick(&[0, 0, 1, 2]) {
        channels.push(strip(random, true));
    }
    for _ in 0..1 + random.below(3) {
        channels.push(if random.once_in(2) {
            strip(random, false)
        } else {
            channel(random, false)
        });
    }
    let mut bytes = Vec::new();
    for c in &channels {
        let (hshift, vshift) = c.shifts.unwrap_or((255, 255));
        bytes.extend(match random.below(24) {
            0 => strip_field(c.width, c.height, hshift, vshift),
            _ => add(Record::new(), c).bytes().to_vec(),
        });
    }
    let number = random.pick(&[0, 1, 1, 2, 3]);
    bytes.extend(steps(random, Record::new(), channels, number));
    bytes
}

/// A channel with a long side and a short one.
fn strip(random: &mut Random, meta: bool) -> Channel {
    let long = match random.below(16) {
        0 => random.pick(&LONG_SIDES),
        1 => random.bits() as u32,
        _ => random.pick(&[65_535, 65_536, 65_537, 1_048_575]),
    };
    let short = random.pick(&[0, 0, 0, 1, 1, 2, 3, 16]);
    let turned = random.once_in(2);
    Channel {
        width: if turned { short } else { long },
        height: if turned { long } else { short },
        ..channel(random, meta)
    }
}

/// Channels around the stops, most of them alike, with and without steps; under
/// version 2, or with its field otherwise.
fn versions(random: &mut Random) -> Vec<u8> {
    let mut channels = Vec::new();
    if random.once_in(3) {
        channels.push(channel(random, true));
    }
    let like = near_stop(random);
    for _ in 0..random.pick(&[1, 1, 2, 3, 3, 4]) {
        let other = near_stop(random);
        channels.push(if random.once_in(8) { other } else { like });
    }
    let record = channels.iter().fold(Record::new(), add);
    let number = random.pick(&[0, 0, 0, 1, 2, 5]);
    let bytes = steps(random, record, channels, number);
    with_version(random, &bytes)
}

/// A channel with a side around a stop, and often a smaller one.
fn near_stop(random: &mut Random) -> Channel {
    let mut near = channel(random, false);
    near.width = random.pick(&STOPS);
    if random.once_in(2) {
        near.height = random.pick(&STOPS);
    }
    if random.once_in(2) {
        (near.width, near.height) = (near.height, near.width);
    }
    near
}

/// A record, which begins with a channel of tag 1, under version 2; or the field with
/// another value or length, late, twice, cut or alone.
fn with_version(random: &mut Random, record: &[u8]) -> Vec<u8> {
    let value = random.pick(&[0, 1, 3, 4, 255]);
    let (front, rest) = record.split_at(random.pick(&[9, record.len()]));
    match random.below(16) {
        0..=1 => [&[4, 1, 0, value], record].concat(),
        2 => [&[4, 0, 0], record].concat(),
        3 => [&[4, 2, 0, 2, 0], record].concat(),
        4 => [front, &HOUSE, rest].concat(),
        5 => [&HOUSE, front, &HOUSE, rest].concat(),
        6 => [&HOUSE, &HOUSE, record].concat(),
        7 => HOUSE[..1 + random.below(4)].to_vec(),
        _ => [&HOUSE, record].concat(),
    }
}

/// Channels and steps in any order, some of them unsound.
fn mixed_form(random: &mut Random) -> Vec<u8> {
    let mut bytes = Vec::new();
    for _ in 0..1 + random.below(5) {
        let (mut tag, mut length) = random.pick(&[(1, 6), (1, 6), (2, 5), (3, 10)]);
        if random.once_in(8) {
            tag = random.pick(&[0, 1, 2, 3, 4]);
            length = random.pick(&[0, 1, 4, 5, 6, 7, 9, 10, 11]);
        }
        bytes.extend_from_slice(&[tag, length, 0]);
        let odd = random.once_in(3);
        for _ in 0..length {
            let any = random.pick(&[0, 1, 2, 3, 4, 9, 30, 31, 255]);
            bytes.push(if odd { any } else { random.pick(&[0, 0, 1]) });
        }
    }
    bytes
}

/// One change: a byte, a bit, a cut, an insertion, a removal.
pub fn damage(random: &mut Random, bytes: &mut Vec<u8>) {
    let at = random.below(bytes.len() + 1);
    if at == bytes.len() {
        return bytes.push(random.bits() as u8);
    }
    match random.below(6) {
        0 => bytes[at] = random.bits() as u8,
        1 => bytes[at] ^= 1 << random.below(8),
        2 => bytes[at] = random.pick(&[0, 1, 2, 3, 4, 5, 6, 10, 15, 16, 30, 31, 255]),
        3 => bytes.truncate(at),
        4 => bytes.insert(at, random.bits() as u8),
        _ => drop(bytes.remove(at)),
    }
}
