//! Document 02, A.4 by hand: the origins that plans leave, whole layouts as numbers,
//! and records that have none.

use super::{channel, house, meta, shifted, step, Row};
use std::ops::Range;

/// A record, the origins of its layout, and why.
pub type OriginsRow = (Vec<u8>, Vec<u32>, &'static str);

/// The flags of a step: along the rows or the columns, in place or not.
pub const H_IN: u8 = 3;
pub const V_IN: u8 = 2;
pub const H_OUT: u8 = 1;
pub const V_OUT: u8 = 0;

/// Three channels of one size.
pub fn three(width: u16, height: u16) -> Vec<u8> {
    channel(width, height).repeat(3)
}

/// A record of these channels and steps.
pub fn plan(channels: Vec<u8>, steps: &[[u8; 3]]) -> Vec<u8> {
    let mut record = channels;
    for &[flags, first, number] in steps {
        record.extend(step(flags, first, number));
    }
    record
}

/// Rows with a digit for each origin.
fn rows<const N: usize>(rows: [(Vec<u8>, &str, &'static str); N]) -> Vec<OriginsRow> {
    let origin = |digit: char| digit.to_digit(10).expect("a digit");
    let origins = |digits: &str| digits.chars().map(origin).collect();
    rows.map(|(record, digits, why)| (record, origins(digits), why))
        .to_vec()
}

/// One step on three channels: where residuals go, and who moves for them.
#[rustfmt::skip]
pub fn one_step() -> Vec<OriginsRow> {
    let with = |flags, first, number| plan(three(4, 4), &[[flags, first, number]]);
    rows([
        (house(&three(4, 4)), "012", "no step: own positions"),
        (with(H_IN, 0, 1), "0012", "in place, the first: two move"),
        (with(V_IN, 0, 1), "0012", "the direction doesn't matter"),
        (with(H_IN, 1, 1), "0112", "in place, the second: one moves"),
        (with(H_IN, 2, 1), "0122", "in place, the last: none moves"),
        (with(H_IN, 0, 2), "01012", "in place, two: residuals in order"),
        (with(H_IN, 1, 2), "01212", "in place, the last two"),
        (with(H_IN, 0, 3), "012012", "in place, all"),
        (with(H_OUT, 0, 1), "0120", "not in place: the residual at the end"),
        (with(V_OUT, 0, 1), "0120", "the direction doesn't matter"),
        (with(H_OUT, 1, 1), "0121", "not in place, the second"),
        (with(H_OUT, 2, 1), "0122", "not in place, the last"),
        (with(H_OUT, 0, 2), "01201", "not in place, two"),
        (with(H_OUT, 1, 2), "01212", "not in place, the last two"),
        (with(H_OUT, 0, 3), "012012", "not in place, all"),
    ])
}

/// Steps on what earlier steps left, residuals among it.
#[rustfmt::skip]
pub fn more_steps() -> Vec<OriginsRow> {
    let with = |steps: &[[u8; 3]]| plan(three(4, 4), steps);
    rows([
        (with(&[[H_IN, 0, 1], [H_IN, 2, 1]]), "00112", "a channel that has moved"),
        (with(&[[H_IN, 0, 1], [H_OUT, 2, 1]]), "00121", "the same, not in place"),
        (with(&[[H_IN, 0, 1], [H_IN, 0, 1]]), "00012", "averages again"),
        (with(&[[H_IN, 0, 1], [H_IN, 1, 1]]), "00012", "a residual"),
        (with(&[[H_IN, 1, 1], [H_OUT, 2, 1]]), "01121", "a residual, not in place"),
        (with(&[[H_OUT, 0, 1], [H_IN, 3, 1]]), "01200", "a residual at the end"),
        (with(&[[H_OUT, 1, 1], [V_OUT, 3, 1]]), "01211", "the same, not in place"),
        (with(&[[H_OUT, 1, 2], [H_IN, 3, 1]]), "012112", "the first of two residuals"),
        (with(&[[H_OUT, 1, 2], [H_IN, 4, 1]]), "012122", "the second of two residuals"),
        (with(&[[H_OUT, 1, 2], [V_OUT, 3, 2]]), "0121212", "both residuals"),
        (with(&[[H_IN, 0, 1], [H_IN, 1, 2]]), "001012", "a residual and another channel"),
        (with(&[[H_IN, 1, 1], [H_OUT, 1, 2]]), "011211", "averages and residual of one channel"),
        (with(&[[H_OUT, 0, 3], [V_IN, 2, 2]]), "01202012", "averages of one and a residual of another"),
        (with(&[[H_IN, 1, 1], [H_OUT, 0, 2], [V_IN, 5, 1]]), "0112011", "a residual behind another channel's"),
        (with(&[[H_IN, 1, 1], [V_IN, 2, 1], [H_IN, 3, 1]]), "011112", "residuals of residuals"),
        (with(&[[H_OUT, 2, 1], [H_OUT, 3, 1], [H_OUT, 4, 1]]), "012222", "the same, the last without a sample"),
    ])
}

/// Meta channels, and channels without a sample.
#[rustfmt::skip]
pub fn metas_and_small_sides() -> Vec<OriginsRow> {
    let palettes = || meta(4, 4).repeat(2);
    let with = |steps: &[[u8; 3]]| plan([palettes(), channel(4, 4)].concat(), steps);
    let dots = |steps: &[[u8; 3]]| plan(channel(1, 1).repeat(2), steps);
    let empty = [channel(0, 5), channel(4, 4)].concat();
    rows([
        (plan(palettes(), &[[H_IN, 1, 1]]), "011", "meta channels alone"),
        (with(&[[H_OUT, 2, 1]]), "0122", "a channel behind them"),
        (with(&[[H_IN, 0, 1]]), "0012", "the first of them"),
        (with(&[[H_IN, 0, 2]]), "01012", "both"),
        (with(&[[H_IN, 0, 1], [V_IN, 1, 1]]), "00012", "a residual that is meta"),
        (with(&[[H_IN, 0, 1], [V_IN, 2, 1]]), "00112", "a meta channel that has moved"),
        (with(&[[H_IN, 0, 2], [V_IN, 1, 3]]), "01011012", "averages and residuals that are meta"),
        (dots(&[[H_IN, 0, 2]]), "0101", "residuals without a sample"),
        (dots(&[[H_OUT, 0, 1], [V_OUT, 1, 1]]), "0101", "the same, one by one"),
        (dots(&[[V_OUT, 1, 1], [H_OUT, 0, 1]]), "0110", "and the other way round"),
        (plan(empty, &[[H_OUT, 1, 1]]), "011", "a channel without a sample"),
    ])
}

/// Default plans of both versions, with chroma steps where version 1 has them.
#[rustfmt::skip]
pub fn default_plans() -> Vec<OriginsRow> {
    let palette = || meta(5, 1);
    rows([
        (channel(20, 9), "0000", "the printed listing"),
        (channel(9, 8).repeat(2), "0101", "two channels have no chroma step"),
        ([channel(9, 8), channel(8, 9), channel(9, 8)].concat(), "012012", "nor have unlike ones"),
        (three(1, 1), "012", "nor have dots"),
        (three(8, 8), "0121212", "chroma steps alone"),
        (three(9, 9), "0120120121212", "chroma steps, then two on all"),
        ([palette(), three(9, 9)].concat(), "01231231232323", "the same behind a palette"),
        (channel(9, 1).repeat(4), "0123012312", "one chroma step, four channels"),
        ([channel(9, 8).repeat(2), channel(2, 2)].concat(), "0120121212", "a third channel of another size"),
        (house(&three(9, 9)), "012", "no step under version 2"),
        (house(&three(33, 20)), "012012", "one step under version 2"),
        (house(&[palette(), channel(40, 40).repeat(2)].concat()), "0121212", "two, behind a palette"),
    ])
}

/// 128 channels squeezed to 256, and 64 squeezed to 256 by way of their residuals.
#[rustfmt::skip]
pub fn to_256() -> Vec<OriginsRow> {
    let (front, back) = (0..64, 64..128);
    let (f, b) = (&front, &back);
    let row = |channels, steps: &[[u8; 3]], origins: [&Range<u32>; 4], why| {
        let origins = origins.into_iter().flat_map(Range::clone);
        (plan(channels, steps), origins.collect(), why)
    };
    let many = || channel(2, 1).repeat(128);
    let few = || channel(8, 8).repeat(64);
    vec![
        row(many(), &[[H_IN, 0, 128]], [f, b, f, b], "in place"),
        row(many(), &[[H_OUT, 0, 128]], [f, b, f, b], "not in place"),
        row(many(), &[[H_IN, 0, 64], [H_IN, 128, 64]], [f, f, b, b], "in place, by halves"),
        row(many(), &[[H_IN, 64, 64], [H_IN, 0, 64]], [f, f, b, b], "the last half first"),
        row(many(), &[[H_OUT, 0, 64], [H_OUT, 64, 64]], [f, b, f, b], "not in place, by halves"),
        row(many(), &[[H_OUT, 64, 64], [H_OUT, 0, 64]], [f, b, b, f], "the last half first"),
        row(few(), &[[H_IN, 0, 64], [V_IN, 64, 64], [H_IN, 128, 64]], [f; 4], "residuals, in place"),
        row(few(), &[[H_OUT, 0, 64], [V_OUT, 64, 64], [H_OUT, 128, 64]], [f; 4], "residuals, not in place"),
    ]
}

/// All of them.
pub fn origins() -> Vec<OriginsRow> {
    [
        one_step(),
        more_steps(),
        metas_and_small_sides(),
        default_plans(),
        to_256(),
    ]
    .concat()
}

/// A record, and its layout as numbers: counts, steps, channels and origins.
pub type LayoutRow = (Vec<u8>, [Vec<u32>; 4], &'static str);

/// Whole layouts.
#[rustfmt::skip]
pub fn layouts() -> Vec<LayoutRow> {
    let row = |record: &[Vec<u8>], counts: [u32; 4], steps: &[[u32; 3]], channels: &[[u32; 4]], origins: &[u32], why| {
        (record.concat(), [counts.to_vec(), steps.concat(), channels.concat(), origins.to_vec()], why)
    };
    let strip = vec![3, 10, 0, 0, 0, 1, 0, 1, 0, 0, 0, 0, 0];
    vec![
        row(&[channel(8, 8)], [1, 0, 1, 1], &[], &[[8, 8, 0, 0]], &[0], "no step"),
        row(
            &[channel(20, 9)], [1, 3, 4, 2], &[[3, 0, 1], [2, 0, 1], [3, 0, 1]],
            &[[5, 5, 2, 1], [5, 5, 2, 1], [10, 4, 1, 1], [10, 9, 1, 0]], &[0, 0, 0, 0],
            "the printed listing",
        ),
        row(
            &[house(&meta(300, 1)), channel(40, 20)], [2, 1, 3, 3], &[[3, 1, 1]],
            &[[300, 1, 255, 255], [20, 20, 1, 0], [20, 20, 1, 0]], &[0, 1, 1],
            "version 2, and a palette",
        ),
        row(
            &[three(9, 9)], [1, 4, 13, 6], &[[1, 1, 2], [0, 1, 2], [2, 0, 3], [3, 0, 3]],
            &[
                [5, 5, 1, 1], [3, 3, 2, 2], [3, 3, 2, 2],
                [4, 5, 1, 1], [2, 3, 2, 2], [2, 3, 2, 2],
                [9, 4, 0, 1], [5, 2, 1, 2], [5, 2, 1, 2],
                [4, 9, 1, 0], [4, 9, 1, 0], [5, 4, 1, 1], [5, 4, 1, 1],
            ],
            &[0, 1, 2, 0, 1, 2, 0, 1, 2, 1, 2, 1, 2],
            "chroma steps",
        ),
        row(
            &[meta(4, 2), channel(5, 3), channel(4, 4), step(H_OUT, 1, 1), step(V_IN, 3, 1)],
            [1, 2, 5, 5], &[[1, 1, 1], [2, 3, 1]],
            &[[4, 2, 255, 255], [3, 3, 1, 0], [4, 4, 0, 0], [2, 2, 1, 1], [2, 1, 1, 1]],
            &[0, 1, 2, 1, 1],
            "a residual squeezed",
        ),
        row(
            &[strip, channel(9, 0), step(H_IN, 0, 1)], [1, 1, 3, 0], &[[3, 0, 1]],
            &[[32_768, 1, 1, 0], [32_768, 1, 1, 0], [9, 0, 0, 0]], &[0, 0, 1],
            "a strip, and a channel without a sample",
        ),
    ]
}

/// Records without a layout, at least one for each number.
#[rustfmt::skip]
pub fn refused() -> Vec<Row> {
    let one = || channel(9, 9);
    let rows = [
        (vec![vec![1]], 1, "a cut head"),
        (vec![one(), vec![2, 5, 0, 3]], 1, "a cut step"),
        (vec![vec![5, 0, 0]], 2, "an unknown tag"),
        (vec![one(), step(H_IN, 0, 1), one()], 2, "a channel after a step"),
        (vec![], 3, "no channel"),
        (vec![one().repeat(257)], 3, "257 channels"),
        (vec![shifted(9, 9, 31, 0)], 4, "a shift of 31"),
        (vec![one(), step(4, 0, 1)], 4, "flag bit 2"),
        (vec![channel(4096, 4096), channel(1, 1)], 5, "one sample too many"),
        (vec![one(), step(H_IN, 1, 1)], 6, "a range past the end"),
        (vec![one(), step(H_IN, 0, 1), step(H_OUT, 1, 1), step(H_IN, 2, 2)], 6, "the third step's range"),
        (vec![meta(9, 9), one(), step(H_IN, 0, 2)], 7, "meta and another"),
        (vec![meta(9, 9), step(H_OUT, 0, 1)], 8, "meta, not in place"),
        (vec![channel(0, 9), step(H_IN, 0, 1)], 9, "a side of 0"),
        (vec![channel(1, 9), step(H_IN, 0, 1), step(H_IN, 1, 1)], 9, "a residual's side of 0"),
        (vec![shifted(9, 9, 30, 0), step(H_IN, 0, 1)], 10, "a shift of 31 afterwards"),
        (vec![one().repeat(129), step(H_OUT, 0, 128)], 10, "257 channels afterwards"),
        (vec![meta(9, 9)], 11, "a default plan and only a meta channel"),
    ];
    rows.map(|(fields, answer, why)| (fields.concat(), answer, why)).to_vec()
}
