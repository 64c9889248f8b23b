//! Records written from numbers, compared; and such numbers at random.

use crate::guard::Lent;
use crate::random::Random;
use crate::{expect, lists, number, raw, records};
use squeeze::{Channel, Record, Refusal, Step, Version, RECORD_ROOM};
use squeeze_model::{record, record_writer};

/// Version, channels and steps as numbers: one, four and three each, or a remainder
/// too.
#[derive(Clone, Debug, PartialEq, Eq)]
pub struct Parts {
    /// The version.
    pub version: u32,
    /// Width, height and two shifts of each channel.
    pub channels: Vec<u32>,
    /// Flags, first channel and number of each step.
    pub steps: Vec<u32>,
}

impl Parts {
    /// The numbers of a record of good form.
    pub fn of_record(bytes: &[u8]) -> Option<Parts> {
        let record = record::read(bytes).ok()?;
        Some(Parts {
            version: record.version.number(),
            channels: record.channels.iter().flat_map(|c| c.numbers()).collect(),
            steps: record.steps.iter().flat_map(|s| s.numbers()).collect(),
        })
    }

    /// How many bytes the record of the whole groups has.
    pub fn bytes(&self) -> usize {
        let (channels, _) = self.channels.as_chunks::<4>();
        let long = |c: &&[u32; 4]| c[0] > 65_535 || c[1] > 65_535;
        let strips = channels.iter().filter(long).count();
        let version = if self.version == 2 { 4 } else { 0 };
        version + 13 * strips + 9 * (channels.len() - strips) + 8 * (self.steps.len() / 3)
    }

    /// What the model answers, with room enough.
    pub fn model_answer(&self) -> u32 {
        self.model(&mut [0; RECORD_ROOM], &mut [0])
    }

    fn model(&self, record: &mut [u8], length: &mut [u32]) -> u32 {
        record_writer::write_record(self.version, &self.channels, &self.steps, record, length)
    }

    /// The C function with `room` bytes for the record and `numbers` numbers for
    /// its length. Gives the answer, and the record slice afterwards.
    pub fn compare_room(&self, room: usize, numbers: usize) -> Result<(u32, Vec<u8>), String> {
        let before = (vec![0x23; room], vec![0xeeee_eeee; numbers]);
        let (mut model_record, mut model_length) = before.clone();
        let expected = self.model(&mut model_record, &mut model_length);
        let channels = Lent::new(&self.channels, 0x5a5a_0008);
        let steps = Lent::new(&self.steps, 0x5a5a_0009);
        let mut record = Lent::new(&before.0, 0xa5);
        let mut length = Lent::new(&before.1, 0x5a5a_000a);
        let answer = raw::record(
            self.version,
            channels.slice(),
            steps.slice(),
            record.slice_mut(),
            length.slice_mut(),
        );
        let same = answer == expected
            && channels.holds(&self.channels)
            && steps.holds(&self.steps)
            && record.holds(&model_record)
            && length.holds(&model_length);
        let promise = answer == 0 || (record.holds(&before.0) && length.holds(&before.1));
        expect(same && promise, || {
            format!(
                "record into {room} bytes, {numbers} numbers: core {answer}, model {expected}, \
                 length {:?}; {self:?}",
                length.slice()
            )
        })?;
        Ok((answer, model_record))
    }

    /// All ways to write the record, with room enough; one that is written is
    /// read back. Gives the answer.
    pub fn compare(&self) -> Result<u32, String> {
        let (answer, mut bytes) = self.compare_room(RECORD_ROOM, 1)?;
        bytes.truncate(self.bytes());
        self.compare_safe(answer, &bytes)?;
        if answer == 0 {
            self.read_back(&bytes)?;
        }
        Ok(answer)
    }

    /// The safe function on the same numbers; and the record of the same version,
    /// channels and steps where their types hold them.
    fn compare_safe(&self, expected: u32, bytes: &[u8]) -> Result<(), String> {
        let mut record = vec![0x23; RECORD_ROOM];
        let written = squeeze::write_record(self.version, &self.channels, &self.steps, &mut record);
        let same = match written {
            Ok(length) => expected == 0 && record[..length] == *bytes,
            Err(refusal) => expected == refusal.number(),
        };
        expect(same, || {
            format!("record, safe function: {written:?} for {expected}; {self:?}")
        })?;
        for record in self.typed_records() {
            let same = match &record {
                Ok(record) => {
                    let version = u32::from(record.version().0);
                    expected == 0 && record.bytes() == bytes && version == self.version
                }
                Err(_) => number(&record) == expected,
            };
            expect(same, || format!("{record:?} for {expected}; {self:?}"))?;
        }
        Ok(())
    }

    /// The record in every form that the crate has for it, if types hold it.
    fn typed_records(&self) -> Vec<Result<Record, Refusal>> {
        let Some((version, channels, steps)) = self.typed() else {
            return vec![];
        };
        let built = |empty: Record| {
            let built = channels.iter().copied().fold(empty, Record::add_channel);
            steps.iter().copied().fold(built, Record::step).checked()
        };
        let mut records = vec![
            built(Record::under(version)),
            Record::from_parts_under(version, &channels, &steps),
        ];
        if version == Version::STANDARD {
            records.push(built(Record::new()));
            records.push(Record::from_parts(&channels, &steps));
        }
        records
    }

    /// The same as version, channels and steps, if there is no remainder and each
    /// number is one that its type holds.
    fn typed(&self) -> Option<(Version, Vec<Channel>, Vec<Step>)> {
        let (channels, []) = self.channels.as_chunks::<4>() else {
            return None;
        };
        let (steps, []) = self.steps.as_chunks::<3>() else {
            return None;
        };
        let channel = |&[width, height, h, v]: &[u32; 4]| {
            Some(Channel {
                width,
                height,
                shifts: match (h, v) {
                    (255, 255) => None,
                    _ => Some((h.try_into().ok()?, v.try_into().ok()?)),
                },
            })
        };
        let step = |&[flags, first, number]: &[u32; 3]| {
            (flags <= 3).then_some(Step {
                horizontal: flags & 1 == 1,
                in_place: flags & 2 == 2,
                first: first.try_into().ok()?,
                number: number.try_into().ok()?,
            })
        };
        let channels: Option<_> = channels.iter().map(channel).collect();
        let steps: Option<_> = steps.iter().map(step).collect();
        let version = Version(self.version.try_into().ok()?);
        Some((version, channels?, steps?))
    }

    /// The core lists what it wrote, and the bytes say what was given.
    fn read_back(&self, bytes: &[u8]) -> Result<(), String> {
        let listed = lists::compare(bytes)?;
        let same = listed == 0 && Parts::of_record(bytes).as_ref() == Some(self);
        expect(same, || {
            format!("record read back: listing {listed}, {bytes:02x?}; {self:?}")
        })
    }
}

/// Numbers at which an answer changes, for any place of a channel or step.
pub const VALUES: [u32; 29] = [
    0,
    1,
    2,
    3,
    4,
    8,
    9,
    29,
    30,
    31,
    32,
    254,
    255,
    256,
    257,
    511,
    65_534,
    65_535,
    65_536,
    65_537,
    131_071,
    1_048_574,
    1_048_575,
    1_048_576,
    1_048_577,
    1 << 24,
    1 << 31,
    u32::MAX - 1,
    u32::MAX,
];

/// What a number that is cut to its field would lose.
pub const CUTS: [u32; 6] = [1 << 8, 1 << 16, 1 << 20, 1 << 24, 1 << 31, u32::MAX << 16];

/// Versions: both, around them, and what would be one of them if cut.
pub const VERSIONS: [u32; 14] = [
    0,
    1,
    2,
    3,
    4,
    255,
    256,
    257,
    258,
    65_537,
    65_538,
    1 << 31,
    u32::MAX - 1,
    u32::MAX,
];

/// Some numbers: of a record of good form, or with a number or a count changed.
pub fn some(random: &mut Random) -> Parts {
    let mut parts = loop {
        if let Some(parts) = Parts::of_record(&records::some(random)) {
            break parts;
        }
    };
    if random.once_in(6) {
        parts.version = random.pick(&VERSIONS);
    }
    for _ in 0..random.pick(&[0, 0, 0, 1, 1, 2]) {
        damage(random, &mut parts);
    }
    parts
}

/// One change: a number, a number more than its field holds, a remainder, a
/// count around its limit.
fn damage(random: &mut Random, parts: &mut Parts) {
    let of_channels = random.once_in(2);
    let (numbers, group, most) = if of_channels {
        (&mut parts.channels, 4, 256)
    } else {
        (&mut parts.steps, 3, 64)
    };
    let at = random.below(numbers.len() + 1);
    match random.below(8) {
        0 => {
            let groups = most - 1 + random.below(3);
            let one = numbers.iter().copied().cycle();
            *numbers = one.take(groups * group).collect();
        }
        1 => numbers.truncate(at),
        2 => numbers.extend((0..1 + random.below(group)).map(|_| random.bits() as u32)),
        3 => numbers.clear(),
        _ if at == numbers.len() => {}
        4 => numbers[at] = random.bits() as u32,
        5 => numbers[at] = random.pick(&VALUES),
        _ => numbers[at] = numbers[at].wrapping_add(random.pick(&CUTS)),
    }
}
