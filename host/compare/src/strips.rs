//! The ways in which a call meets a strip, which is a channel with a side above
//! 65,535 or a field of tag 3: so that a test can say that its inputs met them.

use crate::parts::Parts;
use crate::runs::Run;
use crate::ways::refused_field;
use squeeze::GridQuery;
use squeeze_model::{MAX_SHORT_SIDE, MAX_SIDE};

/// What a strip was in, and the answer.
#[derive(Clone, Copy, Debug, PartialEq, Eq)]
#[allow(missing_docs)]
pub enum Way {
    RunTaken,
    RecordTaken,
    RecordPlan,
    FieldCut,
    FieldAfterStep,
    FieldLength,
    ShortFieldLength,
    FieldTooMany,
    FieldShort,
    FieldLong,
    FieldForm,
    NumbersTaken,
    NumbersPlan,
    NumbersLong,
    TileTaken,
    TileLong,
    RectTaken,
    RectLong,
}

/// Every way, and what the report says of it.
pub const WAYS: [(Way, &str); 18] = [
    (Way::RunTaken, "run: a strip with samples, 0"),
    (Way::RecordTaken, "record: strips, 0 or 12"),
    (Way::RecordPlan, "record: strips, 5 to 11"),
    (Way::FieldCut, "record: tag 3 cut, 1"),
    (Way::FieldAfterStep, "record: tag 3 after a step, 2"),
    (Way::FieldLength, "record: tag 3 with another length, 2"),
    (Way::ShortFieldLength, "record: tag 1 with length 10, 2"),
    (Way::FieldTooMany, "record: tag 3 as the 257th, 3"),
    (Way::FieldShort, "record: tag 3, but it fits tag 1, 4"),
    (Way::FieldLong, "record: tag 3, above the limit, 4"),
    (Way::FieldForm, "record: tag 3, shifts or meta late, 4"),
    (Way::NumbersTaken, "numbers: strips, 0 or 12"),
    (Way::NumbersPlan, "numbers: strips, 5 to 11"),
    (Way::NumbersLong, "numbers: above the limit, 4"),
    (Way::TileTaken, "tile: a long side, 0"),
    (Way::TileLong, "tile: above the limit, 13"),
    (Way::RectTaken, "grid_rect: a long side, 0"),
    (Way::RectLong, "grid_rect: above the limit, 4"),
];

/// The way of a run that was answered so, if it met a strip.
pub fn of_run(run: &Run, answer: u32) -> Option<Way> {
    match of_record(run.record, answer) {
        Some(Way::RecordTaken) if answer == 0 && run.input.len() > MAX_SHORT_SIDE as usize => {
            Some(Way::RunTaken)
        }
        way => way,
    }
}

/// The way of a record.
pub fn of_record(bytes: &[u8], answer: u32) -> Option<Way> {
    if let 1..=4 = answer {
        return of_field(refused_field(bytes, answer)?.1, answer);
    }
    let longest = longest(&Parts::of_record(bytes)?)?;
    match answer {
        _ if longest <= MAX_SHORT_SIDE => None,
        0 | 12 => Some(Way::RecordTaken),
        _ => Some(Way::RecordPlan),
    }
}

/// The longest side, if there is a channel.
fn longest(parts: &Parts) -> Option<u32> {
    let (channels, _) = parts.channels.as_chunks::<4>();
    channels.iter().map(|c| c[0].max(c[1])).max()
}

/// The way of a field that was refused with 1 to 4.
fn of_field(field: &[u8], answer: u32) -> Option<Way> {
    let length = field.len().saturating_sub(3);
    match (field[0], answer) {
        (3, 1) => Some(Way::FieldCut),
        (3, 2) if length == 10 => Some(Way::FieldAfterStep),
        (3, 2) => Some(Way::FieldLength),
        (1, 2) if length == 10 => Some(Way::ShortFieldLength),
        (3, 3) => Some(Way::FieldTooMany),
        (3, 4) => Some(of_form(field)),
        _ => None,
    }
}

/// Which part of question 4 a field of tag 3 didn't pass.
fn of_form(field: &[u8]) -> Way {
    let side = |at: usize| u32::from_le_bytes([0, 1, 2, 3].map(|k| field[at + k]));
    match side(3).max(side(7)) {
        longest if longest > MAX_SIDE => Way::FieldLong,
        longest if longest > MAX_SHORT_SIDE => Way::FieldForm,
        _ => Way::FieldShort,
    }
}

/// The way of channels and steps as numbers.
pub fn of_parts(parts: &Parts, answer: u32) -> Option<Way> {
    let longest = longest(parts)?;
    match answer {
        4 if longest > MAX_SIDE => Some(Way::NumbersLong),
        3 | 4 => None,
        _ if longest <= MAX_SHORT_SIDE => None,
        0 | 12 => Some(Way::NumbersTaken),
        _ => Some(Way::NumbersPlan),
    }
}

/// The way of a tile call.
pub fn of_tile(sizes: &[(usize, usize); 3], answer: u32) -> Option<Way> {
    let longest = sizes.iter().map(|&(w, h)| w.max(h)).max()?;
    match answer {
        0 if longest > MAX_SHORT_SIDE as usize => Some(Way::TileTaken),
        13 if longest > MAX_SIDE as usize => Some(Way::TileLong),
        _ => None,
    }
}

/// The way of a rectangle call.
pub fn of_rect(query: &GridQuery, answer: u32) -> Option<Way> {
    let longest = query.width.max(query.height);
    match answer {
        0 if longest > MAX_SHORT_SIDE => Some(Way::RectTaken),
        4 if longest > MAX_SIDE => Some(Way::RectLong),
        _ => None,
    }
}
