//! Records: questions 1 to 4, field by field. A version stands first, or nowhere
//! (document 02, A.11).

use crate::list::{Channel, Step};
use crate::version::Version;
use crate::{plan, refusal, MAX_CHANNELS, MAX_SHORT_SIDE, MAX_STEPS};

/// Version, channels and steps of a record, as they stand there.
#[derive(Clone, Debug, Default, PartialEq, Eq)]
pub struct Record {
    /// The version; 1 where the record doesn't say it.
    pub version: Version,
    /// The channels.
    pub channels: Vec<Channel>,
    /// The steps; none means the default plan.
    pub steps: Vec<Step>,
}

/// Reads a record, or gives the first refusal of form.
pub fn read(bytes: &[u8]) -> Result<Record, u32> {
    let mut record = Record::default();
    let mut rest = bytes;
    while !rest.is_empty() {
        let (tag, body, after) = field(rest)?;
        let first = rest.len() == bytes.len();
        match (tag, body.len()) {
            (4, 1) if first => record.version = Version::of_field(body[0])?,
            (1, 6) if record.steps.is_empty() => add_channel(&mut record, short(body), false)?,
            (3, 10) if record.steps.is_empty() => add_channel(&mut record, long(body), true)?,
            (2, 5) => add_step(&mut record, body)?,
            _ => return Err(refusal::BAD_FIELD),
        }
        rest = after;
    }
    if record.channels.is_empty() {
        return Err(refusal::COUNT);
    }
    Ok(record)
}

/// Form first, then the plan.
pub fn judge(bytes: &[u8]) -> Result<plan::Plan, u32> {
    let record = read(bytes)?;
    plan::judge(record.version, record.channels, record.steps)
}

/// Question 1: tag, body and the bytes after the field.
fn field(bytes: &[u8]) -> Result<(u8, &[u8], &[u8]), u32> {
    let [tag, low, high, rest @ ..] = bytes else {
        return Err(refusal::CUT_FIELD);
    };
    let length = number(&[*low, *high]) as usize;
    if length > rest.len() {
        return Err(refusal::CUT_FIELD);
    }
    let (body, after) = rest.split_at(length);
    Ok((*tag, body, after))
}

/// A number of up to four bytes, the least first.
fn number(bytes: &[u8]) -> u32 {
    let add = |value, &byte| value << 8 | u32::from(byte);
    bytes.iter().rev().fold(0, add)
}

/// Width, height and two shifts under tag 1: 2, 2, 1 and 1 byte.
fn short(body: &[u8]) -> [u32; 4] {
    [&body[..2], &body[2..4], &body[4..5], &body[5..]].map(number)
}

/// The same under tag 3: 4, 4, 1 and 1 byte.
fn long(body: &[u8]) -> [u32; 4] {
    [&body[..4], &body[4..8], &body[8..9], &body[9..]].map(number)
}

/// Whether a channel's sides are such as tag 1 holds; else its tag is 3 (document
/// 02, A.8).
pub fn fits_tag_1([width, height, ..]: [u32; 4]) -> bool {
    width <= MAX_SHORT_SIDE && height <= MAX_SHORT_SIDE
}

fn add_channel(record: &mut Record, numbers: [u32; 4], tag_3: bool) -> Result<(), u32> {
    if record.channels.len() == MAX_CHANNELS {
        return Err(refusal::COUNT);
    }
    let channel = Channel::of_numbers(numbers)?;
    if tag_3 && fits_tag_1(numbers) {
        return Err(refusal::FORM);
    }
    if channel.meta() && record.channels.iter().any(|c| !c.meta()) {
        return Err(refusal::FORM);
    }
    record.channels.push(channel);
    Ok(())
}

fn add_step(record: &mut Record, body: &[u8]) -> Result<(), u32> {
    if record.steps.len() == MAX_STEPS {
        return Err(refusal::COUNT);
    }
    let flags = body[0];
    if flags > 3 {
        return Err(refusal::FORM);
    }
    record.steps.push(Step {
        horizontal: flags & 1 == 1,
        in_place: flags & 2 == 2,
        first: number(&body[1..3]),
        number: number(&body[3..]),
    });
    Ok(())
}
