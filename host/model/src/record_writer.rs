//! The record's writer: version, channels and steps as numbers, the interface's form
//! of them, to the record's bytes, by questions 3 to 11 and then 14. There are as many
//! channels and steps as whole groups of numbers; a number that no field could hold
//! is judged, never cut.

use crate::list::{Channel, Step};
use crate::record::fits_tag_1;
use crate::version::Version;
use crate::{plan, refusal, MAX_CHANNELS, MAX_STEPS};

/// Width, height and two shifts.
type ChannelNumbers = [u32; 4];
/// Flags, first channel and number.
type StepNumbers = [u32; 3];

/// Writes the record over the front of `record` and its length over the first of
/// `length`: 0, or a refusal's number and both slices as they were.
pub fn write_record(
    version: u32,
    channels: &[u32],
    steps: &[u32],
    record: &mut [u8],
    length: &mut [u32],
) -> u32 {
    let (channels, channels_rest) = channels.as_chunks();
    let (steps, steps_rest) = steps.as_chunks();
    let plan = match judge(version, channels, steps) {
        Ok(plan) => plan,
        Err(number) => return number,
    };
    let bytes = encode(plan.version, channels, steps);
    let whole = channels_rest.is_empty() && steps_rest.is_empty();
    if !whole || record.len() < bytes.len() || length.is_empty() {
        return refusal::LENGTH;
    }
    record[..bytes.len()].copy_from_slice(&bytes);
    length[0] = bytes.len() as u32;
    0
}

/// Questions 3 to 11.
fn judge(
    version: u32,
    channels: &[ChannelNumbers],
    steps: &[StepNumbers],
) -> Result<plan::Plan, u32> {
    if channels.is_empty() || channels.len() > MAX_CHANNELS || steps.len() > MAX_STEPS {
        return Err(refusal::COUNT);
    }
    let version = Version::of_number(version)?;
    let list = channels.iter().copied().map(Channel::of_numbers);
    let list = list.collect::<Result<Vec<Channel>, u32>>()?;
    let steps = steps.iter().map(step).collect::<Result<Vec<Step>, u32>>()?;
    let meta = list.iter().take_while(|c| c.meta()).count();
    if list[meta..].iter().any(Channel::meta) {
        return Err(refusal::FORM);
    }
    plan::judge(version, list, steps)
}

/// Question 4 for one step.
fn step(&[flags, first, number]: &StepNumbers) -> Result<Step, u32> {
    if flags > 3 {
        return Err(refusal::FORM);
    }
    Ok(Step {
        horizontal: flags & 1 == 1,
        in_place: flags & 2 == 2,
        first,
        number,
    })
}

/// The record of numbers that fit their fields.
fn encode(version: Version, channels: &[ChannelNumbers], steps: &[StepNumbers]) -> Vec<u8> {
    let version = version_field(version).into_iter();
    let channels = channels.iter().map(channel_field);
    let fields = version.chain(channels);
    let fields = fields.chain(steps.iter().map(step_field));
    fields.flatten().collect()
}

/// The version's field; none for version 1.
fn version_field(version: Version) -> Option<Vec<u8>> {
    match version {
        Version::Standard => None,
        Version::House => Some(field(4, &[(version.number(), 1)])),
    }
}

fn channel_field(numbers: &ChannelNumbers) -> Vec<u8> {
    let &[width, height, h, v] = numbers;
    let (tag, side) = if fits_tag_1(*numbers) { (1, 2) } else { (3, 4) };
    field(tag, &[(width, side), (height, side), (h, 1), (v, 1)])
}

fn step_field(&[flags, first, number]: &StepNumbers) -> Vec<u8> {
    field(2, &[(flags, 1), (first, 2), (number, 2)])
}

/// A field: its tag, its length, and each number in so many bytes.
fn field(tag: u8, numbers: &[(u32, usize)]) -> Vec<u8> {
    let mut body = Vec::new();
    for &(number, bytes) in numbers {
        body.extend_from_slice(&number.to_le_bytes()[..bytes]);
    }
    let [low, high] = (body.len() as u16).to_le_bytes();
    [&[tag, low, high], &body[..]].concat()
}
