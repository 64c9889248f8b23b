//! Why the core refuses a call: document 01's numbers.

use std::error::Error;
use std::fmt;

/// The reason for a refusal, one for each of document 01's numbers. A refused
/// call has changed none of its slices.
#[derive(Clone, Copy, Debug, PartialEq, Eq, Hash, PartialOrd, Ord)]
#[repr(u32)]
pub enum Refusal {
    /// 1: a field's head or its stated length runs past the record.
    CutField = 1,
    /// 2: unknown tag, a length that isn't the tag's own, a channel after a step, or
    /// tag 4 after another field.
    BadField = 2,
    /// 3: no channel, more than 256 channels or more than 64 steps.
    Count = 3,
    /// 4: shifts out of range, a meta channel after another, unknown flag bits, a
    /// side above 1,048,575, tag 3 for a channel that fits tag 1, tag 4 with another
    /// value than 2, or a version other than 1 or 2.
    Form = 4,
    /// 5: more than 16,777,216 samples.
    TooManySamples = 5,
    /// 6: a step without channels, or its range ends past the last channel.
    StepRange = 6,
    /// 7: a step's range begins with a meta channel and ends with another, or the reverse.
    MixedKinds = 7,
    /// 8: a step on meta channels that isn't in place.
    MetaNotInPlace = 8,
    /// 9: a step on a channel with a side of 0.
    EmptySide = 9,
    /// 10: a step that would leave more than 256 channels or a shift above 30.
    PlanTooDeep = 10,
    /// 11: the default plan is meant, and every channel is meta.
    OnlyMeta = 11,
    /// 12: a slice doesn't have its length, or room for what is written.
    SliceLength = 12,
    /// 13: sizes or neighbour lines of a tile call that don't fit each other, or a
    /// side above 1,048,575.
    TileSizes = 13,
    /// 14: kinds that have no rectangle, or a group dimension that doesn't exist.
    RectKind = 14,
}

impl Refusal {
    /// Every refusal, in the order of the numbers.
    pub const ALL: [Refusal; 14] = [
        Refusal::CutField,
        Refusal::BadField,
        Refusal::Count,
        Refusal::Form,
        Refusal::TooManySamples,
        Refusal::StepRange,
        Refusal::MixedKinds,
        Refusal::MetaNotInPlace,
        Refusal::EmptySide,
        Refusal::PlanTooDeep,
        Refusal::OnlyMeta,
        Refusal::SliceLength,
        Refusal::TileSizes,
        Refusal::RectKind,
    ];

    /// Document 01's number, 1 to 14.
    pub fn number(self) -> u32 {
        self as u32
    }

    /// The refusal with this number, if there is one.
    pub fn from_number(number: u32) -> Option<Refusal> {
        let index = number.checked_sub(1)?;
        Refusal::ALL.get(index as usize).copied()
    }

    fn reason(self) -> &'static str {
        match self {
            Refusal::CutField => "a field's head or its stated length runs past the record",
            Refusal::BadField => {
                "unknown tag, wrong field length, a channel after a step, or tag 4 not first"
            }
            Refusal::Count => "there must be 1 to 256 channels and at most 64 steps",
            Refusal::Form => {
                "shifts must be 0 to 30 or both 255, meta channels first, unknown flag bits 0, \
                 sides at most 1,048,575, tag 3 for a side above 65,535 only, tag 4 for \
                 version 2 only, versions 1 or 2"
            }
            Refusal::TooManySamples => "more than 16,777,216 samples",
            Refusal::StepRange => "a step has no channels or ends past the last channel",
            Refusal::MixedKinds => "a step begins on a meta channel and ends on another kind",
            Refusal::MetaNotInPlace => "a step on meta channels must be in place",
            Refusal::EmptySide => "a step on a channel with a side of 0",
            Refusal::PlanTooDeep => "a step would leave more than 256 channels or a shift above 30",
            Refusal::OnlyMeta => "the default plan needs a channel that is not meta",
            Refusal::SliceLength => "a slice doesn't have its length, or is too short",
            Refusal::TileSizes => {
                "sizes or neighbour lines of a tile don't fit, or a side is above 1,048,575"
            }
            Refusal::RectKind => "no rectangle for these kinds or this group dimension",
        }
    }
}

impl fmt::Display for Refusal {
    fn fmt(&self, f: &mut fmt::Formatter<'_>) -> fmt::Result {
        write!(f, "refused {}: {}", self.number(), self.reason())
    }
}

impl Error for Refusal {}
