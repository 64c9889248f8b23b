//! Document 01's rules and document 02's in plain Rust, written from these papers
//! alone, to compare the proved core with and to time it against. One file per
//! subject, in the papers' order and words. Refusals are the papers' numbers.

#![forbid(unsafe_code)]
#![warn(missing_docs)]

pub mod forward;
pub mod layout;
pub mod list;
pub mod listing;
pub mod marks;
pub mod origins;
pub mod pair;
pub mod plan;
pub mod record;
pub mod record_writer;
pub mod rect;
pub mod run;
pub mod squeeze;
pub mod tile;
pub mod version;

/// The most samples of a list, or of a rectangle of a tile call.
pub const MAX_SAMPLES: u64 = 16_777_216;
/// The most channels of a list.
pub const MAX_CHANNELS: usize = 256;
/// The most steps of a plan.
pub const MAX_STEPS: usize = 64;
/// The highest shift.
pub const MAX_SHIFT: u8 = 30;
/// The longest side (document 02, A.8).
pub const MAX_SIDE: u32 = 1_048_575;
/// The longest side of a channel under tag 1.
pub const MAX_SHORT_SIDE: u32 = 65_535;

/// The refusals' numbers.
pub mod refusal {
    /// Question 1: a head or a stated length outside the bytes.
    pub const CUT_FIELD: u32 = 1;
    /// Question 2: tag, length, a channel after a step, or tag 4 after another field
    /// (document 02, A.11).
    pub const BAD_FIELD: u32 = 2;
    /// Question 3: how many channels and steps.
    pub const COUNT: u32 = 3;
    /// Question 4: shifts, meta channels first, flag bits; sides, and tag 3 for a
    /// channel that fits tag 1 (document 02, A.8); the version (A.11).
    pub const FORM: u32 = 4;
    /// Question 5: the sample total.
    pub const SAMPLES: u32 = 5;
    /// Question 6: a default plan for meta channels only.
    pub const ONLY_META: u32 = 11;
    /// Question 7: the range.
    pub const RANGE: u32 = 6;
    /// Question 8: both ends meta or both not.
    pub const MIXED: u32 = 7;
    /// Question 9: meta in place.
    pub const META_PLACE: u32 = 8;
    /// Question 10: no empty side.
    pub const EMPTY: u32 = 9;
    /// Question 11: channels and shifts afterwards.
    pub const DEEP: u32 = 10;
    /// Question 12: the sizes of a tile call.
    pub const TILE: u32 = 13;
    /// Question 13: kinds and group dimension.
    pub const KIND: u32 = 14;
    /// Question 14: the slices' lengths.
    pub const LENGTH: u32 = 12;
}
