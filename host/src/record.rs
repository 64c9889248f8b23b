//! Records: checked by the core's own writer, or only encoded.

use crate::layout::{Channel, Step, Version, META};
use crate::{answer, ffi, Refusal};

/// The bytes that hold every record that the core accepts: a version, 256 channels,
/// then 64 steps.
pub const RECORD_ROOM: usize = VERSION_BYTES + 256 * STRIP_BYTES + 64 * STEP_BYTES;

const VERSION_BYTES: usize = 3 + 1;
const STRIP_BYTES: usize = 3 + 10;
const STEP_BYTES: usize = 3 + 5;

/// The longest side under tag 1.
const SHORT_SIDE: u32 = 65_535;

/// The bytes that describe a picture's channels and its plan. A program that
/// makes records ends with [`checked`](Record::checked), or begins with
/// [`from_parts`](Record::from_parts): then the bytes are those of the proved
/// writer, and no later call refuses them for what they say.
///
/// ```
/// use squeeze::{Record, Refusal};
///
/// let record = Record::new().channel(20, 9).checked()?;
/// assert_eq!(record.bytes(), [1, 6, 0, 20, 0, 9, 0, 0, 0]);
///
/// let large = Record::new().channel(4096, 4096).channel(1, 1);
/// assert_eq!(large.checked(), Err(Refusal::TooManySamples));
/// # Ok::<(), Refusal>(())
/// ```
///
/// A channel with a side above 65,535, a strip, has a longer field with tag 3:
///
/// ```
/// # use squeeze::{Record, Refusal};
/// let strip = Record::new().channel(70_000, 3).checked()?;
/// assert_eq!(strip.bytes(), [3, 10, 0, 0x70, 0x11, 1, 0, 3, 0, 0, 0, 0, 0]);
/// # Ok::<(), Refusal>(())
/// ```
///
/// A record has version 1 and doesn't say so; another version is its first field,
/// tag 4:
///
/// ```
/// # use squeeze::{Record, Refusal, Version};
/// let house = Record::under(Version::HOUSE).channel(20, 9).checked()?;
/// assert_eq!(house.bytes(), [4, 1, 0, 2, 1, 6, 0, 20, 0, 9, 0, 0, 0]);
///
/// let unknown = Record::under(Version(3)).channel(20, 9);
/// assert_eq!(unknown.checked(), Err(Refusal::Form));
/// # Ok::<(), Refusal>(())
/// ```
///
/// Without `checked` a record is only encoded: any numbers are taken, and the call that
/// the bytes are handed to judges them. Channels stand before steps, in whatever
/// order they were added.
#[derive(Clone, Debug, Default, PartialEq, Eq)]
pub struct Record {
    version: Version,
    channels: Vec<Channel>,
    steps: Vec<Step>,
    bytes: Vec<u8>,
}

impl Record {
    /// A record without fields, to which channels and steps are added, of version 1.
    pub fn new() -> Record {
        Record::default()
    }

    /// [`new`](Record::new) of any version.
    pub fn under(version: Version) -> Record {
        Record {
            version,
            bytes: version_field(version),
            ..Record::default()
        }
    }

    /// The record of these channels and steps, as the core writes it, of version 1. No
    /// steps mean the default plan.
    ///
    /// ```
    /// use squeeze::{layout, Channel, Record, Refusal, Step};
    ///
    /// let step = Step { horizontal: true, in_place: true, first: 0, number: 1 };
    /// let record = Record::from_parts(&[Channel::new(20, 9)], &[step])?;
    /// assert_eq!(layout(record.bytes())?.channels.len(), 2);
    ///
    /// let past = Step { first: 1, ..step };
    /// let refused = Record::from_parts(&[Channel::new(20, 9)], &[past]);
    /// assert_eq!(refused, Err(Refusal::StepRange));
    /// # Ok::<(), Refusal>(())
    /// ```
    pub fn from_parts(channels: &[Channel], steps: &[Step]) -> Result<Record, Refusal> {
        Record::from_parts_under(Version::STANDARD, channels, steps)
    }

    /// [`from_parts`](Record::from_parts) of any version.
    ///
    /// ```
    /// use squeeze::{layout, Channel, Record, Refusal, Version};
    ///
    /// let photograph = [Channel::new(640, 480); 3];
    /// let record = Record::from_parts_under(Version::HOUSE, &photograph, &[])?;
    /// assert_eq!(layout(record.bytes())?.preview_channels()[..3], [
    ///     Channel { width: 20, height: 30, shifts: Some((5, 4)) }; 3
    /// ]);
    /// # Ok::<(), Refusal>(())
    /// ```
    pub fn from_parts_under(
        version: Version,
        channels: &[Channel],
        steps: &[Step],
    ) -> Result<Record, Refusal> {
        let mut bytes = vec![0; RECORD_ROOM];
        let channel_numbers: Vec<u32> = channels.iter().flat_map(channel_numbers).collect();
        let step_numbers: Vec<u32> = steps.iter().flat_map(step_numbers).collect();
        let number = version.0.into();
        let length = write_record(number, &channel_numbers, &step_numbers, &mut bytes)?;
        bytes.truncate(length);
        Ok(Record {
            version,
            channels: channels.to_vec(),
            steps: steps.to_vec(),
            bytes,
        })
    }

    /// The same record, judged and written by the core; or why the core refuses
    /// it.
    pub fn checked(self) -> Result<Record, Refusal> {
        let written = Record::from_parts_under(self.version, &self.channels, &self.steps)?;
        assert_eq!(written, self, "the core writes this record otherwise");
        Ok(written)
    }

    /// Adds a channel without shifts.
    pub fn channel(self, width: u32, height: u32) -> Record {
        self.add_channel(Channel::new(width, height))
    }

    /// Adds a channel with a horizontal and a vertical shift.
    pub fn shifted_channel(self, width: u32, height: u32, hshift: u8, vshift: u8) -> Record {
        self.add_channel(Channel::shifted(width, height, hshift, vshift))
    }

    /// Adds a meta channel.
    pub fn meta_channel(self, width: u32, height: u32) -> Record {
        self.add_channel(Channel::meta(width, height))
    }

    /// Adds a channel as a layout gives it.
    pub fn add_channel(mut self, channel: Channel) -> Record {
        let end = self.bytes.len() - self.steps.len() * STEP_BYTES;
        self.bytes.splice(end..end, channel_field(&channel));
        self.channels.push(channel);
        self
    }

    /// Adds a step. A record without steps means the default plan.
    pub fn step(mut self, step: Step) -> Record {
        let [f0, f1] = step.first.to_le_bytes();
        let [n0, n1] = step.number.to_le_bytes();
        self.bytes
            .extend_from_slice(&[2, 5, 0, flags(&step), f0, f1, n0, n1]);
        self.steps.push(step);
        self
    }

    /// The record.
    pub fn bytes(&self) -> &[u8] {
        &self.bytes
    }

    /// Its version; of a record's bytes, [`layout`](fn@crate::layout) tells it.
    pub fn version(&self) -> Version {
        self.version
    }
}

/// The field of a version; nothing for version 1.
fn version_field(version: Version) -> Vec<u8> {
    match version {
        Version::STANDARD => vec![],
        Version(number) => vec![4, 1, 0, number],
    }
}

/// The field of a channel: tag 1 where that holds its sides, else tag 3.
fn channel_field(channel: &Channel) -> Vec<u8> {
    let (hshift, vshift) = shifts(channel);
    let [w0, w1, w2, w3] = channel.width.to_le_bytes();
    let [h0, h1, h2, h3] = channel.height.to_le_bytes();
    if channel.width <= SHORT_SIDE && channel.height <= SHORT_SIDE {
        vec![1, 6, 0, w0, w1, h0, h1, hshift, vshift]
    } else {
        vec![3, 10, 0, w0, w1, w2, w3, h0, h1, h2, h3, hshift, vshift]
    }
}

fn shifts(channel: &Channel) -> (u8, u8) {
    channel.shifts.unwrap_or((META, META))
}

fn flags(step: &Step) -> u8 {
    u8::from(step.horizontal) | u8::from(step.in_place) << 1
}

fn channel_numbers(channel: &Channel) -> [u32; 4] {
    let (hshift, vshift) = shifts(channel);
    [channel.width, channel.height, hshift.into(), vshift.into()]
}

fn step_numbers(step: &Step) -> [u32; 3] {
    [flags(step).into(), step.first.into(), step.number.into()]
}

/// Writes the record of version, channels and steps given as numbers over the front
/// of `record`, and gives its length: version 1 or 2, four numbers a channel (width,
/// height, two shifts, both 255 for meta), three a step (flags, first channel, number;
/// flag bit 0 horizontal, bit 1 in place). A number too large for its place is
/// refused, never cut. [`RECORD_ROOM`] bytes hold every record.
///
/// ```
/// use squeeze::{write_record, Refusal, RECORD_ROOM};
///
/// let mut record = [0; RECORD_ROOM];
/// let length = write_record(1, &[20, 9, 0, 0], &[], &mut record)?;
/// assert_eq!(record[..length], [1, 6, 0, 20, 0, 9, 0, 0, 0]);
///
/// let wide = write_record(1, &[1_048_576, 9, 0, 0], &[], &mut record);
/// assert_eq!(wide, Err(Refusal::Form));
/// let unknown = write_record(258, &[20, 9, 0, 0], &[], &mut record);
/// assert_eq!(unknown, Err(Refusal::Form));
/// # Ok::<(), Refusal>(())
/// ```
pub fn write_record(
    version: u32,
    channels: &[u32],
    steps: &[u32],
    record: &mut [u8],
) -> Result<usize, Refusal> {
    let mut length = [0];
    // SAFETY: references are aligned and not null, for empty slices too, and
    // mutable ones overlap nothing.
    answer(unsafe {
        ffi::squeeze_record(
            version,
            channels.as_ptr(),
            channels.len(),
            steps.as_ptr(),
            steps.len(),
            record.as_mut_ptr(),
            record.len(),
            length.as_mut_ptr(),
            length.len(),
        )
    })?;
    let length = length[0] as usize;
    assert!(length <= record.len(), "a record of {length} bytes");
    Ok(length)
}
