//! The ways in which a call meets a plan version: a record under version 2 or with a
//! field of tag 4, or a version as a number.

use crate::parts::Parts;
use crate::records::HOUSE;
use crate::ways::refused_field;
use squeeze_model::plan::{self, Plan};
use squeeze_model::record::{self, Record};
use squeeze_model::version::Version;

/// What a version was in, and the answer.
#[derive(Clone, Copy, Debug, PartialEq, Eq)]
#[allow(missing_docs)]
pub enum Way {
    Chroma,
    Small,
    Default,
    OwnSteps,
    OwnCoarse,
    Plan,
    FieldCut,
    FieldLength0,
    FieldLength2,
    FieldLate,
    FieldTwice,
    FieldAlone,
    Value0,
    Value1,
    Value3,
    Value255,
    NumbersStandard,
    NumbersHouse,
    NumbersPlan,
    Numbers0,
    Numbers3,
    NumbersCut,
    NumbersLargest,
    NumbersCount,
    NumbersSamples,
    NumbersLater,
}

/// Every way, and what the report says of it.
pub const WAYS: [(Way, &str); 26] = [
    (
        Way::Chroma,
        "record: 2, no chroma step where 1 has one, 0 or 12",
    ),
    (
        Way::Small,
        "record: 2, no step where 1 has one in place, 0 or 12",
    ),
    (Way::Default, "record: 2, any other default plan, 0 or 12"),
    (Way::OwnSteps, "record: 2, steps of its own, 0 or 12"),
    (
        Way::OwnCoarse,
        "record: the same, another coarse count than 1 has",
    ),
    (Way::Plan, "record: 2, 5 to 11"),
    (Way::FieldCut, "record: tag 4 cut, 1"),
    (Way::FieldLength0, "record: tag 4 with length 0, 2"),
    (Way::FieldLength2, "record: tag 4 with length 2, 2"),
    (Way::FieldLate, "record: tag 4 after another field, 2"),
    (Way::FieldTwice, "record: tag 4 first and later, 2"),
    (Way::FieldAlone, "record: tag 4 alone, 3"),
    (Way::Value0, "record: value 0, 4"),
    (Way::Value1, "record: value 1, 4"),
    (Way::Value3, "record: value 3, 4"),
    (Way::Value255, "record: value 255, 4"),
    (Way::NumbersStandard, "numbers: 1, 0 or 12"),
    (Way::NumbersHouse, "numbers: 2, 0 or 12"),
    (Way::NumbersPlan, "numbers: 2, 5 to 11"),
    (Way::Numbers0, "numbers: 0 alone is wrong, 4"),
    (Way::Numbers3, "numbers: 3 alone is wrong, 4"),
    (Way::NumbersCut, "numbers: 1 or 2 if cut, 4"),
    (
        Way::NumbersLargest,
        "numbers: the largest alone is wrong, 4",
    ),
    (Way::NumbersCount, "numbers: a version and a count, 3"),
    (Way::NumbersSamples, "numbers: a version and samples, 4"),
    (Way::NumbersLater, "numbers: a version and the plan, 4"),
];

/// The way of a record.
pub fn of_record(bytes: &[u8], answer: u32) -> Option<Way> {
    match answer {
        1 | 2 | 4 => of_field(bytes, answer),
        3 => (bytes == HOUSE).then_some(Way::FieldAlone),
        _ => {
            let record = record::read(bytes).ok()?;
            (record.version == Version::House).then(|| of_house(record, answer))
        }
    }
}

/// The way of a record that is refused at a field.
fn of_field(bytes: &[u8], answer: u32) -> Option<Way> {
    let (start, field) = refused_field(bytes, answer)?;
    match (answer, field) {
        (1, [4, ..]) if start == 0 => Some(Way::FieldCut),
        (2, [4, ..]) if start > 0 && bytes.starts_with(&HOUSE) => Some(Way::FieldTwice),
        (2, [4, ..]) if start > 0 => Some(Way::FieldLate),
        (2, [4, 0, 0]) => Some(Way::FieldLength0),
        (2, [4, 2, 0, ..]) => Some(Way::FieldLength2),
        (4, [4, _, _, 0]) => Some(Way::Value0),
        (4, [4, _, _, 1]) => Some(Way::Value1),
        (4, [4, _, _, 3]) => Some(Way::Value3),
        (4, [4, _, _, 255]) => Some(Way::Value255),
        _ => None,
    }
}

/// The way of a record under version 2, which may be refused for its plan.
fn of_house(record: Record, answer: u32) -> Way {
    if let 5..=11 = answer {
        return Way::Plan;
    }
    let own = !record.steps.is_empty();
    let judge = |version| plan::judge(version, record.channels.clone(), record.steps.clone());
    let (house, standard) = (judge(Version::House), judge(Version::Standard));
    let (Ok(house), Ok(standard)) = (house, standard) else {
        return Way::Default;
    };
    match own {
        true if house.coarse() != standard.coarse() => Way::OwnCoarse,
        true => Way::OwnSteps,
        false => of_default(&house, &standard),
    }
}

/// The way of a default plan under version 2, beside the same list's under version 1.
fn of_default(house: &Plan, standard: &Plan) -> Way {
    let chroma = standard.steps.iter().any(|step| !step.in_place);
    match (chroma, house.steps.is_empty()) {
        (true, _) => Way::Chroma,
        (false, true) if !standard.steps.is_empty() => Way::Small,
        _ => Way::Default,
    }
}

/// The way of version, channels and steps as numbers.
pub fn of_parts(parts: &Parts, answer: u32) -> Option<Way> {
    match (parts.version, answer) {
        (1, 0 | 12) => Some(Way::NumbersStandard),
        (2, 0 | 12) => Some(Way::NumbersHouse),
        (2, 5..=11) => Some(Way::NumbersPlan),
        (1 | 2, _) => None,
        (_, 3) => Some(Way::NumbersCount),
        _ => of_wrong(parts),
    }
}

/// The way of numbers that are refused for their version, by what else is wrong.
fn of_wrong(parts: &Parts) -> Option<Way> {
    let sound = Parts {
        version: 1,
        ..parts.clone()
    };
    match (sound.model_answer(), parts.version) {
        (0, 0) => Some(Way::Numbers0),
        (0, 3) => Some(Way::Numbers3),
        (0, 257 | 258 | 65_537 | 65_538) => Some(Way::NumbersCut),
        (0, u32::MAX) => Some(Way::NumbersLargest),
        (5, _) => Some(Way::NumbersSamples),
        (6..=11, _) => Some(Way::NumbersLater),
        _ => None,
    }
}
