//! Document 02, A.11 by hand: how records and numbers are answered, and the default
//! plans, under either version; A.3 in `marks` and A.4 in `origins`. The model alone is
//! tested with these rows, and the core beside it (`tests/versions.rs`, `tests/marks.rs`
//! and `tests/origins.rs` in the directory above).

// Each of the tests uses some of it.
#![allow(dead_code)]

pub mod marks;
pub mod origins;

/// A record, its answer, and why.
pub type Row = (Vec<u8>, u32, &'static str);

/// The field that says version 2.
pub const HOUSE: [u8; 4] = [4, 1, 0, 2];

/// A record under version 2; `record` is the same under version 1.
pub fn house(record: &[u8]) -> Vec<u8> {
    [&HOUSE, record].concat()
}

/// A field of tag 4.
pub fn version(value: u8) -> Vec<u8> {
    vec![4, 1, 0, value]
}

/// A field of tag 1.
pub fn channel(width: u16, height: u16) -> Vec<u8> {
    shifted(width, height, 0, 0)
}

pub fn meta(width: u16, height: u16) -> Vec<u8> {
    shifted(width, height, 255, 255)
}

pub fn shifted(width: u16, height: u16, hshift: u8, vshift: u8) -> Vec<u8> {
    let ([w0, w1], [h0, h1]) = (width.to_le_bytes(), height.to_le_bytes());
    vec![1, 6, 0, w0, w1, h0, h1, hshift, vshift]
}

/// A field of tag 2.
pub fn step(flags: u8, first: u8, number: u8) -> Vec<u8> {
    vec![2, 5, 0, flags, first, 0, number, 0]
}

/// Questions 1 to 4 at a field of tag 4, and what stands beside it.
#[rustfmt::skip]
pub fn forms() -> Vec<Row> {
    let one = || channel(9, 9);
    let house = || HOUSE.to_vec();
    let other = |length: u8| [vec![4, length, 0], vec![2; length.into()]].concat();
    let many = |number| vec![one(); number].concat();
    let steps = |number| vec![step(2, 0, 1); number].concat();
    let rows = [
        (vec![vec![4]], 1, "a head of one byte"),
        (vec![vec![4, 1]], 1, "a head of two bytes"),
        (vec![vec![4, 1, 0]], 1, "no value"),
        (vec![vec![4, 2, 0, 2]], 1, "a cut is met before another length"),
        (vec![vec![4, 255, 255], one()], 1, "a length past the end"),
        (vec![one(), vec![4, 1]], 1, "a cut is met before a late field"),
        (vec![house(), one(), vec![4, 1, 0]], 1, "a cut is met before a second field"),
        (vec![other(0)], 2, "length 0, alone"),
        (vec![other(0), one()], 2, "length 0"),
        (vec![other(2), one()], 2, "length 2"),
        (vec![vec![4, 2, 0, 2, 0], one()], 2, "length 2, a number of two bytes"),
        (vec![vec![4, 2, 0, 1, 0]], 2, "a length is met before the value"),
        (vec![other(6), one()], 2, "a channel's length"),
        (vec![vec![4, 1, 1], vec![2; 257], one()], 2, "length 257, which would be 1 if cut"),
        (vec![one(), house()], 2, "after a channel"),
        (vec![one(), version(1)], 2, "after a channel, before the value"),
        (vec![one(), other(0)], 2, "after a channel, length 0"),
        (vec![meta(9, 9), house(), one()], 2, "between channels"),
        (vec![many(256), house()], 2, "after 256 channels"),
        (vec![one(), step(3, 0, 1), house()], 2, "after a step"),
        (vec![step(3, 0, 1), house(), one()], 2, "after a step, no channel yet"),
        (vec![house(), house()], 2, "twice, no channel"),
        (vec![house(), house(), one()], 2, "twice"),
        (vec![house(), version(1), one()], 2, "a second one, before its value"),
        (vec![house(), one(), house()], 2, "first and after a channel"),
        (vec![house(), one(), step(3, 0, 1), house()], 2, "first and last"),
        (vec![house(), one(), step(3, 0, 1), one()], 2, "a channel after a step"),
        (vec![vec![5, 1, 0, 2], one()], 2, "tag 5"),
        (vec![house(), vec![5, 1, 0, 2], one()], 2, "tag 5 second"),
        (vec![house()], 3, "no channel"),
        (vec![house(), step(3, 0, 1)], 3, "a step and no channel"),
        (vec![house(), many(257)], 3, "257 channels"),
        (vec![house(), one(), steps(65)], 3, "65 steps"),
        (vec![version(0), one()], 4, "value 0"),
        (vec![version(1), one()], 4, "value 1, which the writer omits"),
        (vec![version(3), one()], 4, "value 3"),
        (vec![version(255), one()], 4, "value 255"),
        (vec![version(1)], 4, "the value, before the missing channel"),
        (vec![version(1), vec![1]], 4, "the value, before a cut"),
        (vec![version(1), house(), one()], 4, "the value, before a second field"),
        (vec![version(3), many(257)], 4, "the value, before 257 channels"),
        (vec![version(3), meta(9, 9)], 4, "the value, before the plan"),
        (vec![house(), shifted(9, 9, 31, 0)], 4, "a shift of 31"),
        (vec![house(), one(), meta(9, 9)], 4, "a meta channel second"),
        (vec![house(), one(), step(4, 0, 1)], 4, "flag bit 2"),
        (vec![house(), vec![3, 10, 0], vec![0; 10]], 4, "tag 3 for a channel that fits tag 1"),
        (vec![house(), one()], 0, "version 2"),
        (vec![house(), meta(9, 9), one(), step(3, 0, 1)], 0, "version 2, and steps"),
        (vec![house(), many(256)], 0, "256 channels that have no step"),
        (vec![house(), meta(9, 9), steps(64)], 0, "64 steps"),
    ];
    rows.map(|(fields, answer, why)| (fields.concat(), answer, why)).to_vec()
}

/// Records of version 1, and how they are answered under each version: questions 5
/// to 11.
#[rustfmt::skip]
pub fn plans() -> Vec<(Vec<u8>, [u32; 2], &'static str)> {
    let one = || channel(9, 9);
    let rows = [
        (vec![channel(4096, 4096), channel(1, 1)], [5, 5], "one sample too many"),
        (vec![meta(9, 9)], [11, 11], "a default plan and only a meta channel"),
        (vec![one(), step(1, 1, 1)], [6, 6], "a range past the end"),
        (vec![meta(9, 9), one(), step(3, 0, 2)], [7, 7], "meta and another"),
        (vec![meta(9, 9), step(1, 0, 1)], [8, 8], "meta, not in place"),
        (vec![channel(0, 9), step(1, 0, 1)], [9, 9], "a step on width 0"),
        (vec![channel(0, 33)], [9, 9], "both default plans meet width 0"),
        (vec![channel(33, 0)], [9, 9], "both default plans meet height 0"),
        (vec![channel(0, 32)], [9, 0], "no step at 32"),
        (vec![channel(9, 0)], [9, 0], "no step at 9"),
        (vec![channel(0, 8)], [0, 0], "no step at 8"),
        (vec![channel(20, 20), channel(20, 20), channel(0, 0)], [9, 0], "no chroma step to meet width 0"),
        (vec![channel(40, 20), channel(40, 20), channel(0, 0)], [9, 9], "an in-place step meets it"),
        (vec![shifted(9, 9, 30, 30)], [10, 0], "no step, so no shift 31"),
        (vec![shifted(33, 33, 30, 30)], [10, 10], "shift 31 under both"),
        (vec![shifted(33, 33, 29, 29)], [10, 0], "one step each way, shifts 30"),
        (vec![shifted(65, 32, 28, 30)], [10, 0], "two horizontal steps, shift 30"),
        (vec![shifted(65, 32, 29, 30)], [10, 10], "the second makes shift 31"),
        (vec![vec![channel(9, 1); 129].concat()], [10, 0], "129 channels without a step"),
        (vec![vec![channel(33, 1); 128].concat()], [10, 0], "one step leaves 256 channels"),
        (vec![vec![channel(33, 1); 129].concat()], [10, 10], "one step leaves 258 channels"),
        (vec![one(), step(1, 0, 1), step(0, 0, 2)], [0, 0], "steps of its own"),
    ];
    rows.map(|(fields, answers, why)| (fields.concat(), answers, why)).to_vec()
}

/// A call of the writer.
pub struct Numbers {
    pub version: u32,
    pub channels: Vec<u32>,
    pub steps: Vec<u32>,
}

/// Calls of the writer, their answers, and why.
#[rustfmt::skip]
pub fn numbers() -> Vec<(Numbers, u32, &'static str)> {
    let one = [9, 9, 0, 0];
    let call = |version, channels: &[[u32; 4]], steps: &[[u32; 3]]| Numbers {
        version,
        channels: channels.concat(),
        steps: steps.concat(),
    };
    let rest = |version, channels: &[u32]| Numbers { version, channels: channels.to_vec(), steps: vec![] };
    let large = [[4096, 4096, 0, 0], one];
    let max = u32::MAX;
    vec![
        (call(0, &[], &[]), 3, "no channel, before the version"),
        (call(3, &[], &[]), 3, "no channel, before the version"),
        (rest(max, &[9, 9, 0]), 3, "three numbers are no channel"),
        (call(0, &[one; 257], &[]), 3, "257 channels, before the version"),
        (call(3, &[one], &[[3, 0, 1]; 65]), 3, "65 steps, before the version"),
        (call(2, &[one; 257], &[]), 3, "257 channels under version 2"),
        (call(0, &[one], &[]), 4, "version 0"),
        (call(3, &[one], &[]), 4, "version 3"),
        (call(255, &[one], &[]), 4, "version 255"),
        (call(256, &[one], &[]), 4, "version 256, which would be 0 if cut"),
        (call(257, &[one], &[]), 4, "version 257, which would be 1 if cut"),
        (call(258, &[one], &[]), 4, "version 258, which would be 2 if cut"),
        (call(65_537, &[one], &[]), 4, "version 65,537"),
        (call(65_538, &[one], &[]), 4, "version 65,538"),
        (call(1 << 31, &[one], &[]), 4, "version 2^31"),
        (call(max, &[one], &[]), 4, "the largest version"),
        (call(3, &[one], &[[3, 0, 1]]), 4, "a version, with steps too"),
        (call(3, &[[9, 9, 31, 0]], &[]), 4, "a version and a shift"),
        (call(3, &large, &[]), 4, "a version, before samples"),
        (call(0, &large, &[]), 4, "version 0, before samples"),
        (call(3, &[[9, 9, 255, 255]], &[]), 4, "a version, before the default plan"),
        (call(3, &[one], &[[1, 1, 1]]), 4, "a version, before a range"),
        (rest(3, &[9, 9, 0, 0, 1]), 4, "a version, before a remainder"),
        (call(2, &[[9, 9, 31, 0]], &[]), 4, "a shift under version 2"),
        (call(2, &[one], &[[4, 0, 1]]), 4, "a flag under version 2"),
        (call(1, &large, &[]), 5, "samples under version 1"),
        (call(2, &large, &[]), 5, "samples under version 2"),
        (call(2, &[one], &[[1, 1, 1]]), 6, "a range under version 2"),
        (call(2, &[[9, 9, 255, 255], one], &[[3, 0, 2]]), 7, "kinds under version 2"),
        (call(2, &[[9, 9, 255, 255]], &[[1, 0, 1]]), 8, "place under version 2"),
        (call(1, &[[0, 32, 0, 0]], &[]), 9, "the default plan meets width 0 under version 1"),
        (call(2, &[[0, 32, 0, 0]], &[]), 0, "and has no step under version 2"),
        (call(2, &[[0, 33, 0, 0]], &[]), 9, "up to 33"),
        (call(1, &[[9, 9, 30, 30]], &[]), 10, "shift 31 under version 1"),
        (call(2, &[[9, 9, 30, 30]], &[]), 0, "no step under version 2"),
        (call(2, &[[33, 9, 30, 30]], &[]), 10, "shift 31 under version 2"),
        (call(2, &[[9, 9, 255, 255]], &[]), 11, "only a meta channel under version 2"),
        (rest(2, &[9, 9, 0, 0, 1]), 12, "a remainder under version 2"),
        (call(1, &[one], &[]), 0, "version 1"),
        (call(2, &[one], &[]), 0, "version 2"),
        (call(2, &[one], &[[3, 0, 1]]), 0, "version 2, and a step"),
    ]
}

/// The sides to be run.
pub const SIDES: [u16; 5] = [31, 32, 33, 64, 65];

/// Sizes, and the directions of the in-place steps under each version.
pub const DEFAULT_PLANS: [((u16, u16), [&str; 2]); 25] = [
    ((31, 31), ["vhvh", ""]),
    ((31, 32), ["vhvh", ""]),
    ((31, 33), ["vhvhv", "v"]),
    ((31, 64), ["vhvhv", "v"]),
    ((31, 65), ["vhvhvv", "vv"]),
    ((32, 31), ["hvhv", ""]),
    ((32, 32), ["vhvh", ""]),
    ((32, 33), ["vhvhv", "v"]),
    ((32, 64), ["vhvhv", "v"]),
    ((32, 65), ["vhvhvv", "vv"]),
    ((33, 31), ["hvhvh", "h"]),
    ((33, 32), ["hvhvh", "h"]),
    ((33, 33), ["vhvhvh", "vh"]),
    ((33, 64), ["vhvhvh", "vh"]),
    ((33, 65), ["vhvhvhv", "vhv"]),
    ((64, 31), ["hvhvh", "h"]),
    ((64, 32), ["hvhvh", "h"]),
    ((64, 33), ["hvhvhv", "hv"]),
    ((64, 64), ["vhvhvh", "vh"]),
    ((64, 65), ["vhvhvhv", "vhv"]),
    ((65, 31), ["hvhvhh", "hh"]),
    ((65, 32), ["hvhvhh", "hh"]),
    ((65, 33), ["hvhvhvh", "hvh"]),
    ((65, 64), ["hvhvhvh", "hvh"]),
    ((65, 65), ["vhvhvhvh", "vhvh"]),
];

/// A record of some meta channels and `number` channels of one size with a default
/// plan, and the step lines of its listing.
pub struct DefaultPlan {
    pub version: u8,
    pub record: Vec<u8>,
    pub lines: Vec<String>,
}

/// Every size under both versions, with up to four channels, and with a meta channel
/// first.
pub fn default_plans() -> Vec<DefaultPlan> {
    let mut plans = Vec::new();
    for (size, directions) in DEFAULT_PLANS {
        for (metas, number) in [(0, 1), (0, 2), (0, 3), (0, 4), (1, 1), (1, 3), (1, 4)] {
            let channels = vec![channel(size.0, size.1); number].concat();
            let record = [meta(50, 1).repeat(metas), channels].concat();
            let lines = |directions: &str| -> Vec<String> {
                let line = |direction| format!("{direction} in {metas} {number}");
                directions.chars().map(line).collect()
            };
            let mut chroma = vec![];
            if number > 2 {
                chroma = ["h", "v"]
                    .map(|d| format!("{d} out {} 2", metas + 1))
                    .to_vec();
            }
            plans.push(DefaultPlan {
                version: 2,
                record: house(&record),
                lines: lines(directions[1]),
            });
            plans.push(DefaultPlan {
                version: 1,
                record,
                lines: [chroma, lines(directions[0])].concat(),
            });
        }
    }
    plans
}
